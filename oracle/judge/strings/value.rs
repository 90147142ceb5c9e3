//! The value of a string, as document 01 says it.

use super::escapes;
use super::indent::{indent, is_string, leading_spaces};
use super::parts::parted;
use super::{bytes_of, is_escape, is_triple, write_piece};
use super::{Entry, Refused, Result, LONGEST, NOWHERE};

/// Where the value's bytes are.
#[derive(Copy, Clone, Debug, Eq, PartialEq)]
pub enum Held {
    Text { start: u64, end: u64 },
    Output { start: u64, end: u64 },
}

/// The value or the refusal, and the parts that were put.
#[derive(Clone, Debug, Eq, PartialEq)]
pub struct Valued {
    pub value: Result<Held>,
    pub parts: Vec<Entry>,
}

/// The value of the string whose QuoteOpen stands at `place`, with a parts list of
/// `room` places and an output to write to from `position` on.
pub fn valued(
    text: &[u8],
    list: &[Entry],
    place: usize,
    room: usize,
    output: &mut [u8],
    position: usize,
) -> Valued {
    let parted = parted(list, place, room);
    let value = parted.closer.and_then(|_| {
        let triple = is_triple(list[place].kind);
        of_parts(text, &parted.parts, triple, output, position)
    });
    Valued {
        value,
        parts: parted.parts,
    }
}

/// The refusals of the indent and of escapes come first, each over all parts.
fn of_parts(
    text: &[u8],
    parts: &[Entry],
    triple: bool,
    output: &mut [u8],
    position: usize,
) -> Result<Held> {
    let common = indent(text, parts)?;
    let taken = if triple { common } else { 0 };
    let pieces = pieces(text, parts, taken)?;
    if let Some(held) = unbroken(parts, &pieces) {
        return Ok(held);
    }
    write_all(&pieces, output, position)
}

/// What one part gives: the part, and its bytes.
struct Piece {
    part: Entry,
    bytes: Vec<u8>,
}

/// The pieces in order. Holes give none.
fn pieces(text: &[u8], parts: &[Entry], taken: usize) -> Result<Vec<Piece>> {
    let mut pieces = Vec::new();
    for part in parts {
        if let Some(bytes) = piece(text, part, taken)? {
            pieces.push(Piece { part: *part, bytes });
        }
    }
    Ok(pieces)
}

fn piece(text: &[u8], part: &Entry, taken: usize) -> Result<Option<Vec<u8>>> {
    if is_string(part) {
        let bytes = bytes_of(text, part.at)?;
        return Ok(Some(without_indent(bytes, taken)));
    }
    if is_escape(part.kind) {
        let scalar = escapes::scalar(text, part.at, part.kind)?;
        return Ok(Some(scalar.to_string().into_bytes()));
    }
    Ok(None)
}

/// The indent is taken off after a leading LF, as far as spaces go.
fn without_indent(bytes: &[u8], taken: usize) -> Vec<u8> {
    let taken = taken.min(leading_spaces(bytes));
    match bytes {
        [first, rest @ ..] => [&[*first], &rest[taken..]].concat(),
        [] => Vec::new(),
    }
}

/// The text's part, if the value is one String part with nothing taken off.
fn unbroken(parts: &[Entry], pieces: &[Piece]) -> Option<Held> {
    let ([part], [piece]) = (parts, pieces) else {
        return None;
    };
    let (start, end) = (part.at.start(), part.at.end());
    let whole = piece.bytes.len() as u64 == end - start;
    (is_string(part) && whole).then_some(Held::Text { start, end })
}

/// Each piece whole or not at all; the first that does not fit is refused.
fn write_all(pieces: &[Piece], output: &mut [u8], position: usize) -> Result<Held> {
    let mut end = position;
    for piece in pieces {
        if !write_piece(output, end, &piece.bytes) {
            return Err(Refused::new(46, piece.part.at));
        }
        end += piece.bytes.len();
    }
    if end > output.len().min(LONGEST as usize) {
        // There was no piece, so that no part is to blame.
        return Err(Refused::new(46, NOWHERE));
    }
    Ok(Held::Output {
        start: position as u64,
        end: end as u64,
    })
}
