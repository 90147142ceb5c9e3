//! The value of a string, and handing it back.

use crate::strings::counted;
use crate::{raw, Entries, List, Refusal};

/// Where a value stands, as [`write_value`] answers it.
#[derive(Copy, Clone, Debug, Eq, PartialEq)]
pub enum Held {
    /// In the text, from `start` to before `end`.
    Text {
        /// The offset of the first byte.
        start: usize,
        /// The offset after the last byte.
        end: usize,
    },
    /// In the output, from `start` to before `end`.
    Output {
        /// The offset of the first byte.
        start: usize,
        /// The offset after the last byte.
        end: usize,
    },
}

/// The bytes of a value: a part of the text, which lives as long as the text, or a part of
/// the output.
#[derive(Copy, Clone, Debug, Eq, PartialEq)]
pub enum Value<'t, 'o> {
    /// The string is one unbroken part of the text.
    Text(&'t [u8]),
    /// The value was written to the output.
    Output(&'o [u8]),
}

impl<'t, 'o> Value<'t, 'o> {
    /// The bytes, for as long as both text and output live.
    pub fn bytes<'r>(self) -> &'r [u8]
    where
        't: 'r,
        'o: 'r,
    {
        match self {
            Value::Text(bytes) => bytes,
            Value::Output(bytes) => bytes,
        }
    }
}

/// The value of the string whose opening quote stands at `place` of a list that was lexed
/// from `text`: [`write_value`], and then [`hand`].
///
/// ```
/// use rcl::{lex, value, List, Stack, Value};
///
/// # let (mut kinds, mut words) = ([0; 16], [0; 32]);
/// # let (mut stack_kinds, mut stack_words) = ([0; 2], [0; 4]);
/// # let (mut part_kinds, mut part_words) = ([0; 8], [0; 16]);
/// # let mut list = List::new(&mut kinds, &mut words);
/// # let mut stack = Stack::new(&mut stack_kinds, &mut stack_words);
/// # let mut parts = List::new(&mut part_kinds, &mut part_words);
/// let text = br#"["plain", "caf\u00e9"]"#;
/// assert_eq!(lex(1, text, &mut list, &mut stack).answer, Ok(()));
///
/// let mut output = [0; 16];
/// let plain = value(text, list.entries(), 1, &mut parts, &mut output, 0);
/// assert_eq!(plain, Ok(Value::Text(b"plain")));
/// let escaped = value(text, list.entries(), 5, &mut parts, &mut output, 0).unwrap();
/// assert_eq!(escaped.bytes(), "caf\u{e9}".as_bytes());
/// ```
pub fn value<'t, 'o>(
    text: &'t [u8],
    list: Entries<'_>,
    place: usize,
    parts: &mut List<'_>,
    output: &'o mut [u8],
    position: usize,
) -> Result<Value<'t, 'o>, Refusal> {
    let held = write_value(text, list, place, parts, output, position)?;
    hand(text, output, held)
}

/// Writes the value of a string to `output` from `position` on, and answers where it stands;
/// this borrows the output for the call alone, so that several values can be written one
/// after the other and handed back later.
///
/// The parts are listed as by [`parts`](crate::parts); then String and Escape parts are
/// written, each whole or not at all; in triple quotes the indent is taken off; holes give no
/// byte. A string that is one unbroken String part (no second part, a hole included, and no
/// indent taken off) is answered as that part of the text, and the output is neither read nor
/// written; any other, `""` too, as a part of the output.
///
/// Refusals: those of the parts, of the indent, of the escapes, each over the whole string
/// before a byte is written, then 46 where a piece does not fit, or `position` is past the
/// output's end. After a refusal the output holds the pieces before it.
///
/// ```
/// use rcl::{hand, lex, write_value, Held, List, Stack};
///
/// # let (mut kinds, mut words) = ([0; 16], [0; 32]);
/// # let (mut stack_kinds, mut stack_words) = ([0; 2], [0; 4]);
/// # let (mut part_kinds, mut part_words) = ([0; 8], [0; 16]);
/// # let mut list = List::new(&mut kinds, &mut words);
/// # let mut stack = Stack::new(&mut stack_kinds, &mut stack_words);
/// # let mut parts = List::new(&mut part_kinds, &mut part_words);
/// let text = br#"["a\tb", "c\td"]"#;
/// assert_eq!(lex(1, text, &mut list, &mut stack).answer, Ok(()));
///
/// let mut output = [0; 16];
/// let one = write_value(text, list.entries(), 1, &mut parts, &mut output, 0).unwrap();
/// assert_eq!(one, Held::Output { start: 0, end: 3 });
/// let two = write_value(text, list.entries(), 7, &mut parts, &mut output, 3).unwrap();
/// assert_eq!(hand(text, &output, one).unwrap().bytes(), b"a\tb");
/// assert_eq!(hand(text, &output, two).unwrap().bytes(), b"c\td");
/// ```
pub fn write_value(
    text: &[u8],
    list: Entries<'_>,
    place: usize,
    parts: &mut List<'_>,
    output: &mut [u8],
    position: usize,
) -> Result<Held, Refusal> {
    // SAFETY: each pointer and the length after it are those of one slice that is borrowed
    // for the call; those that are written are borrowed mutably, so that none overlaps
    // another. Place, count and position may be any: outside they are refused.
    let words = unsafe {
        raw::rcl_value(
            text.as_ptr(),
            text.len(),
            list.kinds.as_ptr(),
            list.kinds.len(),
            list.words.as_ptr(),
            list.words.len(),
            list.count,
            place,
            parts.kinds.as_mut_ptr(),
            parts.kinds.len(),
            parts.words.as_mut_ptr(),
            parts.words.len(),
            output.as_mut_ptr(),
            output.len(),
            position,
        )
    };
    parts.count = words.parts as usize;
    held(&words)
}

fn held(words: &raw::Valued) -> Result<Held, Refusal> {
    Refusal::check_noteless(&words.refusal)?;
    let (start, end) = (words.start as usize, words.end as usize);
    Ok(match words.in_output {
        0 => Held::Text { start, end },
        _ => Held::Output { start, end },
    })
}

/// Hands a value back: the part of the text or of the output where it stands.
///
/// Refusals: 3 where the start is after the end or the end over 2^48 - 1, then 40 for a part
/// outside its slice.
///
/// ```
/// use rcl::{hand, Held, Value};
///
/// let part = Held::Text { start: 1, end: 3 };
/// assert_eq!(hand(b"abcd", b"", part), Ok(Value::Text(b"bc")));
/// let outside = Held::Output { start: 1, end: 3 };
/// assert_eq!(hand(b"abcd", b"", outside).unwrap_err().number, 40);
/// ```
pub fn hand<'t, 'o>(
    text: &'t [u8],
    output: &'o [u8],
    held: Held,
) -> Result<Value<'t, 'o>, Refusal> {
    let (which, start, end) = match held {
        Held::Text { start, end } => (0, start, end),
        Held::Output { start, end } => (1, start, end),
    };
    // SAFETY: each pointer and the length after it are those of one slice that is borrowed
    // for the call, and the call only reads them. Start and end may be any: they are what is
    // checked.
    let words = unsafe {
        raw::rcl_hand_check(
            text.as_ptr(),
            text.len(),
            output.as_ptr(),
            output.len(),
            which,
            start,
            end,
        )
    };
    counted(&words)?;
    Ok(match held {
        Held::Text { start, end } => Value::Text(&text[start..end]),
        Held::Output { start, end } => Value::Output(&output[start..end]),
    })
}
