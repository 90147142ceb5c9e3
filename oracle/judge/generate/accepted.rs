//! Texts that the published lexer accepts, or mostly accepts.

use super::random::Random;
use super::{chosen, nested, rfc8259, spaced, strings, Texts};
use crate::reference::{trace, Trace};
use crate::source::DocId;

/// Most texts have at most so many bytes, one in `LONG_ONCE_IN` some kilobytes.
const SHORT: usize = 200;
const LONG: usize = 6000;
const LONG_ONCE_IN: usize = 300;

/// How deeply texts nest that are made for it.
const DEEPEST: usize = 40;

/// Some with an empty span, a longer one, or a note.
const REFUSED_ENDS: [&str; 9] = [
    ")",
    "(]",
    "f\"{",
    "\"a",
    "1e+",
    "0b__",
    "\"\\u12\"",
    "$",
    "\x0b\n\x01",
];

/// A text, and its steps with ample memory: none of them is refused.
pub struct Accepted {
    pub text: Vec<u8>,
    pub trace: Trace,
}

/// An endless supply of them: RFC 8259's examples, the chosen strings and the fixed texts
/// first, then those of all generators in turn.
pub struct Supply {
    random: Random,
    first: std::vec::IntoIter<Vec<u8>>,
    texts: Texts,
    long: Texts,
    turn: usize,
    /// Two texts in three are mostly strings.
    of_strings: bool,
    /// How many texts were not accepted.
    pub refused: u64,
}

impl Supply {
    pub fn new(seed: u64) -> Supply {
        let chosen = chosen::texts().into_iter().map(<[u8]>::to_vec);
        let first: Vec<Vec<u8>> = rfc8259::texts().into_iter().chain(chosen).collect();
        Supply {
            random: Random::new(seed),
            first: first.into_iter(),
            texts: Texts::new(seed, SHORT),
            long: Texts::without_fixed(!seed, LONG),
            turn: 0,
            of_strings: false,
            refused: 0,
        }
    }

    /// The same with more strings.
    pub fn of_strings(seed: u64) -> Supply {
        Supply {
            of_strings: true,
            ..Supply::new(seed)
        }
    }

    /// The next one, lexed with this id.
    pub fn next(&mut self, doc: DocId) -> Accepted {
        loop {
            let text = self.any_text();
            let trace = trace(&text, doc);
            if trace.refusal.is_none() {
                return Accepted { text, trace };
            }
            self.refused += 1;
        }
    }

    /// A text that may be refused.
    pub fn any_text(&mut self) -> Vec<u8> {
        if let Some(text) = self.first.next() {
            return text;
        }
        self.turn += 1;
        if self.turn % LONG_ONCE_IN == 0 {
            return self.long_text();
        }
        if self.of_strings && self.turn % 3 > 0 {
            return strings::text(&mut self.random, SHORT);
        }
        match self.turn % 8 {
            0..=2 => spaced::text(&mut self.random, SHORT),
            3 | 4 => strings::text(&mut self.random, SHORT),
            5 => nested::text(&mut self.random, DEEPEST, LONG),
            _ => self.texts.next().expect("The supply is endless."),
        }
    }

    /// Accepted texts, each with a line end behind it, of more than 2^16 bytes together: up
    /// to there the second word of a span holds the id alone. It is accepted too.
    pub fn joined(&mut self) -> Vec<u8> {
        let full = self.random.between(1 << 16, 3 << 16);
        let mut text = Vec::new();
        while text.len() <= full {
            text.extend(self.next(DocId(0)).text);
            text.push(b'\n');
        }
        text
    }

    /// The same, with a refusal at its end in every second one.
    pub fn any_joined(&mut self) -> Vec<u8> {
        let mut text = self.joined();
        if self.random.once_in(2) {
            text.extend(self.random.pick(&REFUSED_ENDS).as_bytes());
        }
        text
    }

    fn long_text(&mut self) -> Vec<u8> {
        match self.random.once_in(2) {
            true => spaced::text(&mut self.random, LONG),
            false => self.long.next().expect("The supply is endless."),
        }
    }
}
