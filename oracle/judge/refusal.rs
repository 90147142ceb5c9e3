//! The refusals of document 01, and which of them an error of the published
//! code is. A message that is not known here stops the program: a guess would
//! make the comparison worthless.

use crate::error::Error;
use crate::source::{DocId, Span};

/// A numbered refusal with its span, and the opener's span as its note.
#[derive(Copy, Clone, Debug, Eq, PartialEq)]
pub struct Refusal {
    pub number: u8,
    pub span: Span,
    pub note: Option<Span>,
}

impl Refusal {
    /// A refusal that carries no note.
    pub fn plain(number: u8, span: Span) -> Refusal {
        Refusal {
            number,
            span,
            note: None,
        }
    }

    /// The refusal with the empty span 0-0 of a lexing call.
    pub fn at_start(number: u8, doc: DocId) -> Refusal {
        Refusal::plain(number, Span::new(doc, 0, 0))
    }
}

/// The refusal, 10 to 28, that an error of `lex` is.
pub fn of_lexing(error: &Error) -> Refusal {
    let number = lexing_number(error);
    check_note(number, error);
    Refusal {
        number,
        span: error.span,
        note: error.note.map(|(span, _)| span),
    }
}

/// The refusal, 41 to 45, that an error of `unescape_into` is.
pub fn of_escape(error: &Error) -> Refusal {
    let number = escape_number(error);
    check_note(number, error);
    Refusal::plain(number, error.span)
}

const HELP_COMMENT: &str = "Comments are written with '//', not with '#'.";
const HELP_HEX: &str = "You can also use up to six hex digits enclosed in '{}'. For example '\\u{1F574}' or '\\u{0a}'.";
const HELP_LINE: &str = "To break a long string across lines, break it into multiple strings and concatenate them with '+'.";
const HELP_CASE: &str = "Escape sequences are written lowercase.";
const HELP_SCALAR: &str =
    "For code points beyond U+FFFF, use '\\u{...}' instead of a surrogate pair.";

fn lexing_number(error: &Error) -> u8 {
    match (error.message, error.help) {
        ("Control characters are not supported here.", None) => 10,
        ("Non-ascii characters are not supported here.", None) => 11,
        ("Unrecognized punctuation here.", None) => 12,
        ("Unrecognized punctuation here.", Some(HELP_COMMENT)) => 13,
        ("Expected a binary digit after 0b in this number.", None) => 14,
        ("Expected a hexadecimal digit after 0x in this number.", None) => 15,
        ("Expected a digit to follow the decimal point in this number.", None) => 16,
        ("Expected a digit of the number's exponent here.", None) => 17,
        ("Expected '}' to close Unicode escape sequence.", None) => 18,
        ("Expected four hex digits after '\\u' Unicode escape sequence.", Some(HELP_HEX)) => 19,
        ("Unexpected end of input in escape sequence.", None) => 20,
        ("Invalid escape sequence.", Some(HELP_LINE)) => 21,
        ("Invalid escape sequence.", None) => 22,
        ("Found unmatched ')'.", None) => 23,
        ("Found unmatched '}'.", None) => 23,
        ("Found unmatched ']'.", None) => 23,
        ("Expected ')'.", None) => mismatch_or_end(error),
        ("Expected '}'.", None) => mismatch_or_end(error),
        ("Expected ']'.", None) => mismatch_or_end(error),
        ("Expected '}' here to close format string hole.", None) => 26,
        ("Unexpected end of input, string literal is not closed.", None) => 27,
        ("Unexpected end of input, format string is not closed.", None) => 28,
        _ => unknown(error),
    }
}

/// A wrong closer is refused at its one byte, the end of the text at an empty
/// span; the published code has the same message for both.
fn mismatch_or_end(error: &Error) -> u8 {
    match error.span.len() {
        0 => 25,
        1 => 24,
        _ => unknown(error),
    }
}

fn escape_number(error: &Error) -> u8 {
    match (error.message, error.help) {
        ("Invalid escape sequence.", None) => 41,
        ("Invalid escape sequence.", Some(HELP_CASE)) => 42,
        ("Unicode escape sequence is empty, expected at least one hex digit.", None) => 43,
        ("Unicode escape sequence too long, expected at most 6 hex digits.", None) => 44,
        ("Invalid escape sequence: not a Unicode scalar value.", Some(HELP_SCALAR)) => 45,
        _ => unknown(error),
    }
}

/// Only 24 to 28 have a note, and it points at the opener.
fn check_note(number: u8, error: &Error) {
    let known = match (number, error.note) {
        (24..=28, None) => false,
        (24..=28, Some((_, note))) => is_opener_note(note),
        (_, note) => note.is_none(),
    };
    if !known {
        unknown(error);
    }
}

fn is_opener_note(note: &str) -> bool {
    matches!(
        note,
        "Unmatched '(' opened here."
            | "Unmatched '[' opened here."
            | "Unmatched '{' opened here."
            | "String literal opened here."
            | "Format string opened here."
    )
}

fn unknown(error: &Error) -> u8 {
    panic!("Document 01 has no number for this error: {error:?}");
}
