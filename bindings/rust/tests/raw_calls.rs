//! The calls themselves, told what the wrapper never says: a walker that keeps what no opening
//! gives, and NULL for arrays of length 0.

mod common;

use std::ptr::{null, null_mut};

use common::{refused, span, Arrays, DOC};
use rcl::raw;
use rcl::{Refusal, Span, LARGEST_OFFSET};

// What a walker keeps.

/// Where the walker stands that is told something: before the `[`, in the `(`.
const POSITION: usize = 1;
const DEPTH: usize = 1;

/// A step that is told that this is kept, with room for the `[`. Where it is refused, the walker
/// must stand where it stood and the stack must be untouched.
fn step_told(kept: raw::Refusal) -> raw::Stepped {
    let (text, mut stack) = (b"([", Arrays::new(2));
    stack.kinds[0] = 33;
    let before = (stack.kinds.clone(), stack.words.clone());
    // SAFETY: each pointer and the length after it are those of one live array, and no two
    // overlap.
    let stepped = unsafe {
        raw::rcl_walker_step(
            DOC,
            text.as_ptr(),
            text.len(),
            POSITION,
            DEPTH,
            kept.refused,
            kept.number as u8,
            kept.low,
            kept.high,
            stack.kinds.as_mut_ptr(),
            stack.kinds.len(),
            stack.words.as_mut_ptr(),
            stack.words.len(),
        )
    };
    if stepped.answer == 2 {
        let after = (stepped.position as usize, stepped.depth as usize);
        assert_eq!(after, (POSITION, DEPTH), "{kept:?}");
        assert_eq!((stack.kinds, stack.words), before, "{kept:?}");
    }
    stepped
}

fn words(refused: u64, number: u64, [low, high]: [u64; 2]) -> raw::Refusal {
    raw::Refusal {
        refused,
        number,
        low,
        high,
    }
}

/// The words of a refusal, and the step that gives it.
fn given(refusal: Refusal) -> (raw::Refusal, raw::Stepped) {
    let [low, high] = refusal.span.pack().unwrap();
    let stepped = raw::Stepped {
        answer: 2,
        number: refusal.number.into(),
        low,
        high,
        position: POSITION as u64,
        depth: DEPTH as u64,
        ..raw::Stepped::default()
    };
    (words(1, refusal.number.into(), [low, high]), stepped)
}

#[test]
fn told_what_an_opening_gives() {
    let stepped = step_told(raw::Refusal::default());
    assert_eq!((stepped.answer, stepped.number, stepped.depth), (0, 35, 2));
    for place in [0, 1, 2, 3, 1 << 16, LARGEST_OFFSET] {
        let (kept, expected) = given(refused(1, place, place));
        assert_eq!(step_told(kept), expected);
    }
    let (kept, expected) = given(refused(2, 0, 0));
    assert_eq!(step_told(kept), expected);
}

fn assert_refused(kept: raw::Refusal) {
    let (_, expected) = given(refused(40, 0, 0));
    assert_eq!(step_told(kept), expected, "{kept:?}");
}

/// A walker keeps a refusal 2 or 1, and never gives another number because it is told to.
#[test]
fn told_another_number() {
    for place in [0, 1] {
        let at = span(place, place).pack().unwrap();
        for number in (0..=255).filter(|number| !matches!(number, 1 | 2)) {
            assert_refused(words(1, number, at));
        }
    }
}

#[test]
fn told_what_no_opening_gives() {
    let start = span(0, 0).pack().unwrap();
    for kept in [0, 2, 1 << 32, (1 << 32) + 1, u64::MAX] {
        assert_refused(words(kept, 1, start));
        assert_refused(words(kept, 2, start));
    }
    for (number, at) in [(1, [0, 0]), (0, [1, 0]), (0, [0, 1]), (0, start)] {
        assert_refused(words(0, number, at));
    }
    let after_end = {
        let [low, high] = span(1, 1).pack().unwrap();
        [low + 1, high]
    };
    let other = Span {
        doc: DOC + 1,
        ..span(0, 0)
    };
    for at in [span(0, 1).pack().unwrap(), after_end, other.pack().unwrap()] {
        assert_refused(words(1, 1, at));
        assert_refused(words(1, 2, at));
    }
    assert_refused(words(1, 2, span(1, 1).pack().unwrap()));
}

// NULL.

fn none<T>() -> (*mut T, usize) {
    (null_mut(), 0)
}

/// Each call that lexes accepts the empty text, in no memory at all.
#[test]
fn null_to_lexing_calls() {
    let ((kinds, k), (words, w), (bytes, b)) = (none(), none(), none());
    let text = null();
    // SAFETY: no call reads or writes an array of length 0.
    unsafe {
        let accepted = raw::Lexed::default();
        let lexed = raw::rcl_lex(DOC, text, 0, kinds, k, words, w, kinds, k, words, w);
        assert_eq!(lexed, accepted);
        let tidied = raw::rcl_tidy(
            DOC, text, 0, kinds, k, words, w, kinds, k, words, w, bytes, b,
        );
        assert_eq!((tidied.lexed, tidied.written), (accepted, 0));
        let counted = raw::rcl_lex_tallied(
            0, 0, 0, DOC, text, 0, kinds, k, words, w, kinds, k, words, w,
        );
        assert_eq!((counted.lexed, counted.accepted), (accepted, 1));
        let kept = raw::rcl_walker_open(DOC, text, 0);
        assert_eq!(kept, raw::Refusal::default());
        let stepped = raw::rcl_walker_step(DOC, text, 0, 0, 0, 0, 0, 0, 0, kinds, k, words, w);
        assert_eq!((stepped.answer, stepped.position, stepped.depth), (1, 0, 0));
    }
}

#[test]
fn null_to_the_other_calls() {
    let ((kinds, k), (words, w), (bytes, b)) = (none(), none(), none());
    let text = null();
    // SAFETY: as above.
    unsafe {
        assert_eq!(raw::rcl_utf8(text, 0), u64::MAX);
        assert!(!raw::rcl_is_identifier(text, 0));
        assert!(!raw::rcl_is_keyword(text, 0));
        assert_eq!(raw::rcl_scalar_value(text, 0, 0, 0, 11).refusal.number, 40);
        let written = raw::rcl_unescape_into(text, 0, 0, 0, 11, bytes, b, 0);
        assert_eq!(written.refusal.number, 40);
        let indent = raw::rcl_count_common_leading_spaces(text, 0, kinds, k, words, w, 0);
        assert_eq!(indent, raw::Answer::default());
        let parted = raw::rcl_parts(kinds, k, words, w, 0, 0, kinds, k, words, w);
        assert_eq!(parted.refusal.number, 50);
        let valued = raw::rcl_value(
            text, 0, kinds, k, words, w, 0, 0, kinds, k, words, w, bytes, b, 0,
        );
        assert_eq!(valued.refusal.number, 50);
        for which in [0, 1] {
            let answer = raw::rcl_hand_check(text, 0, bytes, b, which, 0, 0);
            assert_eq!(answer, raw::Answer::default());
        }
    }
}
