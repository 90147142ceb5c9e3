//! Handing a value back, as document 01 says it.

use super::value::Held;
use super::{Refused, Result, Words, LONGEST, NOWHERE};

/// The part's bytes. Refusals: 3 where its start is after its end or its end over the
/// limit, then 40 for a part outside its slice. These calls are given no document id.
pub fn handed<'a>(text: &'a [u8], output: &'a [u8], part: Held) -> Result<&'a [u8]> {
    let (slice, start, end) = match part {
        Held::Text { start, end } => (text, start, end),
        Held::Output { start, end } => (output, start, end),
    };
    if start > end || end > LONGEST {
        return Err(Refused::new(3, NOWHERE));
    }
    let range = start as usize..end as usize;
    slice
        .get(range)
        .ok_or(Refused::new(40, Words::new(0, start, end)))
}

/// What the handing call returns: after a refusal, the text's empty start.
pub fn handed_or_empty<'a>(text: &'a [u8], output: &'a [u8], part: Held) -> &'a [u8] {
    handed(text, output, part).unwrap_or(&text[..0])
}
