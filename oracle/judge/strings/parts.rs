//! The parts of a string, as document 01 says them.

use super::{check_span, is_escape, is_quote_open};
use super::{Entry, Refused, Result, Words};
use super::{HOLE_CLOSE, HOLE_OPEN, NOWHERE, QUOTE_CLOSE, STRING_INNER};

/// The closing quote's place or the refusal, and the parts found before it.
#[derive(Clone, Debug, Eq, PartialEq)]
pub struct Parted {
    pub closer: Result<usize>,
    pub parts: Vec<Entry>,
}

/// The parts of the string whose QuoteOpen stands at `place` of the list, put into a
/// parts list of `room` places.
pub fn parted(list: &[Entry], place: usize, room: usize) -> Parted {
    let mut reader = Reader {
        room,
        parts: Vec::new(),
        holes: Vec::new(),
    };
    let closer = reader.string(list, place);
    Parted {
        closer,
        parts: reader.parts,
    }
}

struct Reader {
    room: usize,
    parts: Vec<Entry>,
    /// What is open beyond the string itself: the hole's opener first. The depth is
    /// one more than these.
    holes: Vec<Words>,
}

impl Reader {
    fn string(&mut self, list: &[Entry], place: usize) -> Result<usize> {
        let mut lexemes = list.iter().enumerate().skip(place);
        let (_, opener) = lexemes.next().ok_or(Refused::new(50, NOWHERE))?;
        check_span(opener.at)?;
        if !is_quote_open(opener.kind) {
            return Err(Refused::new(50, opener.at));
        }
        for (at, lexeme) in lexemes {
            if self.lexeme(lexeme)? {
                return Ok(at);
            }
        }
        Err(Refused::new(50, NOWHERE))
    }

    /// Whether the lexeme ends the string. Refusals in this order: 3, 50, 31.
    fn lexeme(&mut self, lexeme: &Entry) -> Result<bool> {
        check_span(lexeme.at)?;
        if self.holes.is_empty() {
            return self.in_string(lexeme);
        }
        self.in_hole(lexeme)?;
        Ok(false)
    }

    fn in_string(&mut self, lexeme: &Entry) -> Result<bool> {
        match lexeme.kind {
            QUOTE_CLOSE => return Ok(true),
            HOLE_OPEN => self.holes.push(lexeme.at),
            STRING_INNER => self.put(*lexeme)?,
            kind if is_escape(kind) => self.put(*lexeme)?,
            _ => return Err(Refused::new(50, lexeme.at)),
        }
        Ok(false)
    }

    /// Depth alone counts: a closer ends whatever was opened last.
    fn in_hole(&mut self, lexeme: &Entry) -> Result<()> {
        match lexeme.kind {
            HOLE_OPEN => self.holes.push(lexeme.at),
            kind if is_quote_open(kind) => self.holes.push(lexeme.at),
            QUOTE_CLOSE | HOLE_CLOSE => {
                let opener = self.holes.pop().expect("Something is open.");
                if self.holes.is_empty() {
                    return self.hole(opener, lexeme.at);
                }
            }
            _ => {}
        }
        Ok(())
    }

    /// A hole as one part. Its 3, of two documents, and its 31 come at its closer.
    fn hole(&mut self, opener: Words, closer: Words) -> Result<()> {
        let at = union(opener, closer).ok_or(Refused::new(3, NOWHERE))?;
        self.put(Entry {
            kind: HOLE_OPEN,
            at,
        })
    }

    fn put(&mut self, part: Entry) -> Result<()> {
        if self.parts.len() >= self.room {
            return Err(Refused::new(31, part.at));
        }
        self.parts.push(part);
        Ok(())
    }
}

/// A span that encloses both; none of two documents.
fn union(one: Words, other: Words) -> Option<Words> {
    let start = one.start().min(other.start());
    let end = one.end().max(other.end());
    (one.doc() == other.doc()).then(|| Words::new(one.doc(), start, end))
}
