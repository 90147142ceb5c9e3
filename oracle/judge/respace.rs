//! The gap rule, re-spacing and the tidy writer, as document 01 says them, on the
//! lexemes that the published lexer lists.

use crate::codes::{BLANK, LINE_COMMENT, SHEBANG};
use crate::reference::{within, Answer, Listed, Trace};
use crate::refusal::Refusal;
use crate::source::Span;
use crate::strings::{is_escape, is_quote_open, write_piece, HOLE_CLOSE, STRING_INNER};

/// What stands between two lexemes of these codes. The cases are in order: a Blank comes
/// first.
pub fn gap(first: u8, second: u8) -> &'static [u8] {
    match first {
        _ if first == BLANK || second == BLANK => b"",
        STRING_INNER | HOLE_CLOSE => b"",
        _ if is_quote_open(first) || is_escape(first) => b"",
        LINE_COMMENT | SHEBANG => b"\n",
        _ => b" ",
    }
}

/// A gap and the lexeme after it.
#[derive(Clone, Debug, Eq, PartialEq)]
pub struct Piece {
    pub bytes: Vec<u8>,
    /// The lexeme's.
    pub span: Span,
}

/// The pieces of listed lexemes: nothing before the first or after the last.
pub fn pieces(text: &[u8], listed: &[Listed]) -> Vec<Piece> {
    let mut before = None;
    let mut pieces = Vec::with_capacity(listed.len());
    for lexeme in listed {
        let gap = before.map_or(&b""[..], |before| gap(before, lexeme.code));
        pieces.push(Piece {
            bytes: [gap, bytes_of(text, lexeme)].concat(),
            span: lexeme.span,
        });
        before = Some(lexeme.code);
    }
    pieces
}

pub fn bytes_of<'a>(text: &'a [u8], lexeme: &Listed) -> &'a [u8] {
    &text[lexeme.span.start()..lexeme.span.end()]
}

/// Re-spacing: all the pieces, joined.
pub fn respaced(text: &[u8], listed: &[Listed]) -> Vec<u8> {
    let mut out = Vec::with_capacity(2 * text.len());
    for piece in pieces(text, listed) {
        out.extend_from_slice(&piece.bytes);
    }
    out
}

/// What the tidy writer answers: as lexing, with 46 where a piece does not fit, and the
/// bytes written.
#[derive(Clone, Debug, Eq, PartialEq)]
pub struct Tidied {
    pub answer: Answer,
    pub written: usize,
}

/// The tidy writer with so many places for list and stack, and an output to write to from
/// its start. Lexing refusals come first, and then nothing is written.
pub fn tidied(
    text: &[u8],
    trace: &Trace,
    list_places: usize,
    stack_places: usize,
    output: &mut [u8],
) -> Tidied {
    let mut answer = within(trace, list_places, stack_places);
    let mut written = 0;
    if answer.refusal.is_none() {
        let pieces = pieces(text, &answer.listed);
        (written, answer.refusal) = write_all(&pieces, output);
    }
    Tidied { answer, written }
}

/// The bytes written, and the refusal of the first piece that does not fit.
fn write_all(pieces: &[Piece], output: &mut [u8]) -> (usize, Option<Refusal>) {
    let mut at = 0;
    for piece in pieces {
        if !write_piece(output, at, &piece.bytes) {
            return (at, Some(Refusal::plain(46, piece.span)));
        }
        at += piece.bytes.len();
    }
    (at, None)
}
