//! Refusals by their number.

use std::error::Error;
use std::fmt;

use crate::{raw, Span};

/// Why a call gave no answer.
///
/// ```
/// let refusal = rcl::lex_to_vec(1, b"(]").unwrap_err();
/// assert_eq!(refusal.number, 24);
/// assert_eq!(refusal.span.range(), 1..2);
/// assert_eq!(refusal.note.map(|note| note.range()), Some(0..1));
/// assert_eq!(refusal.to_string(), "refusal 24 at 1-2, note at 0-1: closer and another one due");
/// ```
#[derive(Copy, Clone, Debug, Eq, Hash, PartialEq)]
pub struct Refusal {
    /// The number that document 01 gives it.
    pub number: u8,
    /// What was refused.
    pub span: Span,
    /// The opener, where a closer is wrong or missing (24 to 28).
    pub note: Option<Span>,
}

impl Refusal {
    /// When it is given, in the words of document 01's table; empty for a number that is not
    /// in the table.
    ///
    /// ```
    /// let refusal = rcl::lex_to_vec(1, b"1..2").unwrap_err();
    /// assert_eq!(refusal.explanation(), "no digit right after the dot");
    /// ```
    pub fn explanation(&self) -> &'static str {
        EXPLANATIONS
            .iter()
            .find(|(number, _)| *number == self.number)
            .map_or("", |(_, words)| words)
    }

    /// A refusal in the words of a result.
    pub(crate) fn of(number: u64, words: [u64; 2], note: &raw::Note) -> Refusal {
        Refusal {
            number: number as u8,
            span: Span::unpack(words),
            note: (note.noted != 0).then(|| Span::unpack([note.low, note.high])),
        }
    }

    /// The refusal of a result, if there is one.
    pub(crate) fn check(words: &raw::Refusal, note: &raw::Note) -> Result<(), Refusal> {
        match words.refused {
            0 => Ok(()),
            _ => Err(Refusal::of(words.number, [words.low, words.high], note)),
        }
    }

    /// The refusal of a result without notes, if there is one.
    pub(crate) fn check_noteless(words: &raw::Refusal) -> Result<(), Refusal> {
        Refusal::check(words, &raw::Note::default())
    }
}

impl fmt::Display for Refusal {
    fn fmt(&self, formatter: &mut fmt::Formatter<'_>) -> fmt::Result {
        write!(formatter, "refusal {} at {}", self.number, self.span)?;
        if let Some(note) = self.note {
            write!(formatter, ", note at {note}")?;
        }
        write!(formatter, ": {}", self.explanation())
    }
}

impl Error for Refusal {}

/// Every refusal and when it is given, in the order of document 01's table.
pub const EXPLANATIONS: [(u8, &str); 32] = [
    (1, "not UTF-8 by RFC 3629"),
    (2, "over 2^48 - 1 bytes"),
    (3, "span with start after end, end over 2^48 - 1, or a union of two documents"),
    (10, "other control byte"),
    (11, "byte over 127 outside strings, comments and shebangs"),
    (12, "other ASCII punctuation"),
    (13, "`#` without `!`"),
    (14, "`0b` without a digit"),
    (15, "`0x` without a digit"),
    (16, "no digit right after the dot"),
    (17, "no digit after e or E and its sign"),
    (18, "`\\u{` and hex digits without `}`"),
    (19, "`\\u` with fewer than 4 hex digits"),
    (20, "`\\` is the last byte"),
    (21, "`\\` before CR or LF"),
    (22, "`\\` before a byte over 127"),
    (23, "closer and nothing open"),
    (24, "closer and another one due"),
    (25, "end reached in a bracket"),
    (26, "end reached in a hole"),
    (27, "end reached in a string"),
    (28, "end reached in a format string"),
    (30, "opener and full stack"),
    (31, "entry and full list"),
    (40, "wrong kind code or form, or span outside the text; a walker's step: wrong position, depth, stack or kept refusal"),
    (41, "other byte after `\\`"),
    (42, "A to Z after `\\`"),
    (43, "`\\u{}`"),
    (44, "`\\u{..}` with over 6 digits"),
    (45, "surrogate or over 0x10FFFF"),
    (46, "the next piece does not fit the output"),
    (50, "no string"),
];
