//! The indent of a parts list, as document 01 says it.

use super::{bytes_of, check_span, Entry, Refused, Result, HOLE_OPEN, STRING_INNER};

/// Over String parts that begin with LF, the fewest spaces after it; 0 where there is
/// none. Refusals part by part: 3, then 40.
pub fn indent(text: &[u8], parts: &[Entry]) -> Result<usize> {
    let mut fewest = None;
    for (at, part) in parts.iter().enumerate() {
        let bytes = checked(text, part)?;
        let next_is_string = parts.get(at + 1).is_some_and(is_string);
        if !is_string(part) || !begins_line(bytes) {
            continue;
        }
        let spaces = leading_spaces(bytes);
        if is_blank(bytes) && next_is_string {
            continue;
        }
        fewest = Some(fewest.map_or(spaces, |fewest: usize| fewest.min(spaces)));
    }
    Ok(fewest.unwrap_or(0))
}

/// The part's bytes, if nothing is to be refused.
fn checked<'a>(text: &'a [u8], part: &Entry) -> Result<&'a [u8]> {
    check_span(part.at)?;
    match part.kind {
        STRING_INNER..=HOLE_OPEN => bytes_of(text, part.at),
        _ => Err(Refused::new(40, part.at)),
    }
}

pub fn is_string(part: &Entry) -> bool {
    part.kind == STRING_INNER
}

pub fn begins_line(bytes: &[u8]) -> bool {
    bytes.first() == Some(&b'\n')
}

/// The spaces right after a leading LF; 0 where there is none.
pub fn leading_spaces(bytes: &[u8]) -> usize {
    match bytes {
        [b'\n', line @ ..] => line.iter().take_while(|byte| **byte == b' ').count(),
        _ => 0,
    }
}

/// LF and spaces alone, or LF alone.
fn is_blank(bytes: &[u8]) -> bool {
    bytes.len() == 1 + leading_spaces(bytes)
}
