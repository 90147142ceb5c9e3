//! The exported calls and structs of include/rcl.h, which documents each of them; this is
//! the one place where they stand in Rust. Every call is unsafe: each pointer must be that
//! of a live array with at least the length passed beside it, or may be null where that is 0,
//! and an array that is written must overlap no other.

// What each of them is stands in include/rcl.h.
#![allow(missing_docs)]

/// `rcl_refusal`.
#[repr(C)]
#[derive(Copy, Clone, Debug, Default, Eq, PartialEq)]
pub struct Refusal {
    pub refused: u64,
    pub number: u64,
    pub low: u64,
    pub high: u64,
}

/// `rcl_note`.
#[repr(C)]
#[derive(Copy, Clone, Debug, Default, Eq, PartialEq)]
pub struct Note {
    pub noted: u64,
    pub low: u64,
    pub high: u64,
}

/// `rcl_lexed`.
#[repr(C)]
#[derive(Copy, Clone, Debug, Default, Eq, PartialEq)]
pub struct Lexed {
    pub refusal: Refusal,
    pub note: Note,
    pub lexemes: u64,
    pub steps: u64,
    pub kept: u64,
    pub dropped: u64,
    pub deepest: u64,
}

/// `rcl_answer`.
#[repr(C)]
#[derive(Copy, Clone, Debug, Default, Eq, PartialEq)]
pub struct Answer {
    pub refusal: Refusal,
    pub count: u64,
}

/// `rcl_parted`.
#[repr(C)]
#[derive(Copy, Clone, Debug, Default, Eq, PartialEq)]
pub struct Parted {
    pub refusal: Refusal,
    pub closer: u64,
    pub parts: u64,
}

/// `rcl_valued`.
#[repr(C)]
#[derive(Copy, Clone, Debug, Default, Eq, PartialEq)]
pub struct Valued {
    pub refusal: Refusal,
    pub in_output: u64,
    pub start: u64,
    pub end: u64,
    pub parts: u64,
}

/// `rcl_tidied`.
#[repr(C)]
#[derive(Copy, Clone, Debug, Default, Eq, PartialEq)]
pub struct Tidied {
    pub lexed: Lexed,
    pub written: u64,
}

/// `rcl_stepped`.
#[repr(C)]
#[derive(Copy, Clone, Debug, Default, Eq, PartialEq)]
pub struct Stepped {
    pub answer: u64,
    pub number: u64,
    pub low: u64,
    pub high: u64,
    pub note: Note,
    pub position: u64,
    pub depth: u64,
}

/// `rcl_counted`.
#[repr(C)]
#[derive(Copy, Clone, Debug, Default, Eq, PartialEq)]
pub struct Counted {
    pub lexed: Lexed,
    pub accepted: u64,
    pub refused: u64,
    pub steps: u64,
}

extern "C" {
    pub fn rcl_utf8(text: *const u8, len: usize) -> u64;

    pub fn rcl_lex(
        doc: u32,
        text: *const u8,
        len: usize,
        kinds: *mut u8,
        kinds_len: usize,
        words: *mut u64,
        words_len: usize,
        stack_kinds: *mut u8,
        stack_kinds_len: usize,
        stack_words: *mut u64,
        stack_words_len: usize,
    ) -> Lexed;

    pub fn rcl_is_identifier(bytes: *const u8, len: usize) -> bool;

    pub fn rcl_is_keyword(bytes: *const u8, len: usize) -> bool;

    pub fn rcl_scalar_value(text: *const u8, len: usize, low: u64, high: u64, kind: u8) -> Answer;

    pub fn rcl_unescape_into(
        text: *const u8,
        len: usize,
        low: u64,
        high: u64,
        kind: u8,
        output: *mut u8,
        output_len: usize,
        position: usize,
    ) -> Answer;

    pub fn rcl_count_common_leading_spaces(
        text: *const u8,
        len: usize,
        kinds: *const u8,
        kinds_len: usize,
        words: *const u64,
        words_len: usize,
        parts: usize,
    ) -> Answer;

    pub fn rcl_parts(
        kinds: *const u8,
        kinds_len: usize,
        words: *const u64,
        words_len: usize,
        lexemes: usize,
        place: usize,
        part_kinds: *mut u8,
        part_kinds_len: usize,
        part_words: *mut u64,
        part_words_len: usize,
    ) -> Parted;

    pub fn rcl_value(
        text: *const u8,
        len: usize,
        kinds: *const u8,
        kinds_len: usize,
        words: *const u64,
        words_len: usize,
        lexemes: usize,
        place: usize,
        part_kinds: *mut u8,
        part_kinds_len: usize,
        part_words: *mut u64,
        part_words_len: usize,
        output: *mut u8,
        output_len: usize,
        position: usize,
    ) -> Valued;

    pub fn rcl_hand_check(
        text: *const u8,
        len: usize,
        output: *const u8,
        output_len: usize,
        which: u64,
        start: usize,
        end: usize,
    ) -> Answer;

    pub fn rcl_tidy(
        doc: u32,
        text: *const u8,
        len: usize,
        kinds: *mut u8,
        kinds_len: usize,
        words: *mut u64,
        words_len: usize,
        stack_kinds: *mut u8,
        stack_kinds_len: usize,
        stack_words: *mut u64,
        stack_words_len: usize,
        output: *mut u8,
        output_len: usize,
    ) -> Tidied;

    pub fn rcl_walker_open(doc: u32, text: *const u8, len: usize) -> Refusal;

    pub fn rcl_walker_step(
        doc: u32,
        text: *const u8,
        len: usize,
        position: usize,
        depth: usize,
        kept: u64,
        kept_number: u8,
        kept_low: u64,
        kept_high: u64,
        stack_kinds: *mut u8,
        stack_kinds_len: usize,
        stack_words: *mut u64,
        stack_words_len: usize,
    ) -> Stepped;

    pub fn rcl_lex_tallied(
        accepted: u64,
        refused: u64,
        steps: u64,
        doc: u32,
        text: *const u8,
        len: usize,
        kinds: *mut u8,
        kinds_len: usize,
        words: *mut u64,
        words_len: usize,
        stack_kinds: *mut u8,
        stack_kinds_len: usize,
        stack_words: *mut u64,
        stack_words_len: usize,
    ) -> Counted;
}
