//! Names, escape sequences, and the parts and indent of a string.

use crate::{raw, Entries, Kind, List, Refusal, Span};

/// Whether bytes are an identifier: a letter or `_`, then letters, digits, `_` and `-`, with
/// no `-` at the end, and no keyword.
///
/// ```
/// assert!(rcl::is_identifier(b"stage-2"));
/// assert!(!rcl::is_identifier(b"stage-"));
/// assert!(!rcl::is_identifier(b"let"));
/// ```
pub fn is_identifier(bytes: &[u8]) -> bool {
    // SAFETY: pointer and length are those of a slice that is borrowed for the call, and the
    // call only reads it.
    unsafe { raw::rcl_is_identifier(bytes.as_ptr(), bytes.len()) }
}

/// Whether bytes are a keyword.
///
/// ```
/// assert!(rcl::is_keyword(b"let"));
/// assert!(!rcl::is_keyword(b"stage"));
/// ```
pub fn is_keyword(bytes: &[u8]) -> bool {
    // SAFETY: pointer and length are those of a slice that is borrowed for the call, and the
    // call only reads it.
    unsafe { raw::rcl_is_keyword(bytes.as_ptr(), bytes.len()) }
}

pub(crate) fn counted(words: &raw::Answer) -> Result<u64, Refusal> {
    Refusal::check_noteless(&words.refusal)?;
    Ok(words.count)
}

/// The character that an escape sequence stands for; the span and the kind are the
/// sequence's.
///
/// Refusals, in this order: 3 start after end, 40 wrong kind or form or outside the text, 43
/// no digit, 44 over 6 digits, 45 surrogate or over 0x10FFFF, 41 unknown, 42 a capital.
///
/// ```
/// use rcl::{scalar_value, Kind, Span};
///
/// let span = Span { start: 1, end: 7, doc: 0 };
/// assert_eq!(scalar_value(b"\"\\u00e9\"", span, Kind::EscapeUnicode4), Ok('\u{e9}'));
/// let refusal = scalar_value(b"\"\\ud800\"", span, Kind::EscapeUnicode4).unwrap_err();
/// assert_eq!((refusal.number, refusal.span), (45, span));
/// ```
pub fn scalar_value(text: &[u8], span: Span, kind: Kind) -> Result<char, Refusal> {
    let [low, high] = span.pack()?;
    // SAFETY: pointer and length are those of a slice that is borrowed for the call, and the
    // call only reads it.
    let words = unsafe { raw::rcl_scalar_value(text.as_ptr(), text.len(), low, high, kind.code()) };
    let scalar = char::from_u32(counted(&words)? as u32);
    Ok(scalar.expect("Surrogates and what is over 0x10FFFF are refused."))
}

/// Writes that character in UTF-8 to `output` at `position`, whole or not at all, and answers
/// how many bytes it has. Every other byte of the output is as it was.
///
/// Refusals: those of [`scalar_value`], then 46 where it does not fit.
///
/// ```
/// use rcl::{unescape, Kind, Span};
///
/// let mut output = *b"....";
/// let span = Span { start: 1, end: 7, doc: 0 };
/// assert_eq!(unescape(b"\"\\u00e9\"", span, Kind::EscapeUnicode4, &mut output, 1), Ok(2));
/// assert_eq!(&output, b".\xc3\xa9.");
/// ```
pub fn unescape(
    text: &[u8],
    span: Span,
    kind: Kind,
    output: &mut [u8],
    position: usize,
) -> Result<usize, Refusal> {
    let [low, high] = span.pack()?;
    // SAFETY: each pointer and the length after it are those of one slice that is borrowed
    // for the call; the one that is written is borrowed mutably, so that they do not overlap.
    // The position may be any: past the end it is refused.
    let words = unsafe {
        raw::rcl_unescape_into(
            text.as_ptr(),
            text.len(),
            low,
            high,
            kind.code(),
            output.as_mut_ptr(),
            output.len(),
            position,
        )
    };
    Ok(counted(&words)? as usize)
}

/// Lists the parts of the string whose opening quote stands at `place`, and answers the place
/// of its closing quote. A part has one of the kinds 10 to 14; a hole is one part,
/// [`Kind::HoleOpen`], with the span from its `{` to its `}`.
///
/// Refusals, lexeme by lexeme: 3, 50 no string, 31 the list of parts is full. Answered or
/// refused, `parts` holds the parts found, and every place after them is as it was.
///
/// ```
/// use rcl::{lex, parts, Kind, List, Stack};
///
/// # let (mut kinds, mut words) = ([0; 16], [0; 32]);
/// # let (mut stack_kinds, mut stack_words) = ([0; 2], [0; 4]);
/// # let (mut part_kinds, mut part_words) = ([0; 8], [0; 16]);
/// # let mut list = List::new(&mut kinds, &mut words);
/// # let mut stack = Stack::new(&mut stack_kinds, &mut stack_words);
/// let lexed = lex(1, br#"f"row {n + 1}\n""#, &mut list, &mut stack);
/// assert_eq!(lexed.answer, Ok(()));
/// let mut found = List::new(&mut part_kinds, &mut part_words);
/// assert_eq!(parts(list.entries(), 0, &mut found), Ok(8));
/// let found: Vec<_> = found.entries().iter().map(|part| (part.kind, part.span.range())).collect();
/// assert_eq!(
///     found,
///     [(Kind::StringInner, 2..6), (Kind::HoleOpen, 6..13), (Kind::EscapeSingle, 13..15)]
/// );
/// ```
pub fn parts(list: Entries<'_>, place: usize, parts: &mut List<'_>) -> Result<usize, Refusal> {
    // SAFETY: each pointer and the length after it are those of one slice that is borrowed
    // for the call; those that are written are borrowed mutably, so that none overlaps
    // another. Place and count may be any: the list ends at the smaller of its count and its
    // places.
    let words = unsafe {
        raw::rcl_parts(
            list.kinds.as_ptr(),
            list.kinds.len(),
            list.words.as_ptr(),
            list.words.len(),
            list.count,
            place,
            parts.kinds.as_mut_ptr(),
            parts.kinds.len(),
            parts.words.as_mut_ptr(),
            parts.words.len(),
        )
    };
    parts.count = words.parts as usize;
    Refusal::check_noteless(&words.refusal)?;
    Ok(words.closer as usize)
}

/// The indent of a list of parts: over String parts that begin with a line feed, the fewest
/// spaces after it; a part of a line feed and spaces alone is passed over if the next part is a
/// String; 0 where there is no such part.
///
/// Refusals, part by part: 3, then 40 for a kind outside 10 to 14 or a span outside the text.
///
/// ```
/// use rcl::{count_common_leading_spaces, lex, parts, List, Stack};
///
/// # let (mut kinds, mut words) = ([0; 16], [0; 32]);
/// # let (mut stack_kinds, mut stack_words) = ([0; 2], [0; 4]);
/// # let (mut part_kinds, mut part_words) = ([0; 8], [0; 16]);
/// # let mut list = List::new(&mut kinds, &mut words);
/// # let mut stack = Stack::new(&mut stack_kinds, &mut stack_words);
/// # let mut found = List::new(&mut part_kinds, &mut part_words);
/// let text = b"\"\"\"\n    first\n      second\n    \"\"\"";
/// assert_eq!(lex(1, text, &mut list, &mut stack).answer, Ok(()));
/// assert_eq!(parts(list.entries(), 0, &mut found), Ok(4));
/// assert_eq!(count_common_leading_spaces(text, found.entries()), Ok(4));
/// ```
pub fn count_common_leading_spaces(text: &[u8], parts: Entries<'_>) -> Result<usize, Refusal> {
    // SAFETY: each pointer and the length after it are those of one slice that is borrowed
    // for the call, and the call only reads them.
    let words = unsafe {
        raw::rcl_count_common_leading_spaces(
            text.as_ptr(),
            text.len(),
            parts.kinds.as_ptr(),
            parts.kinds.len(),
            parts.words.as_ptr(),
            parts.words.len(),
            parts.count,
        )
    };
    Ok(counted(&words)? as usize)
}
