//! What the calls on strings must answer. `published` asks the published functions,
//! for spans that the lexer made; everything else is written from document 01 and
//! answers for any list, also for one that no lexer makes.

pub mod case;
pub mod escapes;
pub mod hand;
pub mod indent;
pub mod parts;
pub mod published;
pub mod value;

use crate::reference::Listed;
use crate::source::words;

/// The largest offset of a span, and as many bytes as count of an output.
pub const LONGEST: u64 = (1 << 48) - 1;

// The kinds that strings are made of.

pub const QUOTE_CLOSE: u8 = 9;
pub const STRING_INNER: u8 = 10;
pub const HOLE_OPEN: u8 = 14;
pub const HOLE_CLOSE: u8 = 15;

pub fn is_quote_open(kind: u8) -> bool {
    matches!(kind, 5..=8)
}

pub fn is_triple(kind: u8) -> bool {
    matches!(kind, 6 | 8)
}

pub fn is_escape(kind: u8) -> bool {
    matches!(kind, 11..=13)
}

/// A span as its two words, also one whose start is after its end.
#[derive(Copy, Clone, Debug, Default, Eq, PartialEq)]
pub struct Words {
    pub low: u64,
    pub high: u64,
}

/// The span 0-0 of a call that is given no document id.
pub const NOWHERE: Words = Words { low: 0, high: 0 };

impl Words {
    pub fn new(doc: u32, start: u64, end: u64) -> Words {
        Words {
            low: start + ((end % (1 << 16)) << 48),
            high: (end >> 16) + ((doc as u64) << 32),
        }
    }

    pub fn doc(self) -> u32 {
        (self.high >> 32) as u32
    }

    pub fn start(self) -> u64 {
        self.low % (1 << 48)
    }

    pub fn end(self) -> u64 {
        (self.low >> 48) + ((self.high % (1 << 32)) << 16)
    }

    /// Refusal 3: two words can never say an end that is too large.
    pub fn is_bad(self) -> bool {
        self.start() > self.end()
    }
}

/// A lexeme of a list, or a part.
#[derive(Copy, Clone, Debug, Default, Eq, PartialEq)]
pub struct Entry {
    pub kind: u8,
    pub at: Words,
}

/// A refusal's number and span; none of these calls gives a note.
#[derive(Copy, Clone, Debug, Eq, PartialEq)]
pub struct Refused {
    pub number: u8,
    pub at: Words,
}

impl Refused {
    pub fn new(number: u8, at: Words) -> Refused {
        Refused { number, at }
    }
}

pub type Result<T> = std::result::Result<T, Refused>;

/// The lexemes that the published lexer listed.
pub fn entries(listed: &[Listed]) -> Vec<Entry> {
    let entry = |listed: &Listed| {
        let (low, high) = words::of(listed.span);
        Entry {
            kind: listed.code,
            at: Words { low, high },
        }
    };
    listed.iter().map(entry).collect()
}

/// A list ends at the smaller of its count and its places.
pub fn counted(list: &[Entry], count: usize) -> &[Entry] {
    &list[..count.min(list.len())]
}

/// Refusal 3 of a lexeme or part. It carries the span 0-0.
pub fn check_span(at: Words) -> Result<()> {
    match at.is_bad() {
        true => Err(Refused::new(3, NOWHERE)),
        false => Ok(()),
    }
}

/// The bytes of a span, which is known not to be bad. Refusal 40 outside the text.
pub fn bytes_of(text: &[u8], at: Words) -> Result<&[u8]> {
    let range = at.start() as usize..at.end() as usize;
    text.get(range).ok_or(Refused::new(40, at))
}

/// Writes a piece whole, or answers that it does not fit.
pub fn write_piece(output: &mut [u8], position: usize, piece: &[u8]) -> bool {
    let end = output.len().min(LONGEST as usize);
    if position > end || piece.len() > end - position {
        return false;
    }
    output[position..position + piece.len()].copy_from_slice(piece);
    true
}
