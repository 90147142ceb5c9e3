//! Texts to compare on: the same ones for the same seed.

pub mod accepted;
pub mod cases;
pub mod chosen;
mod contexts;
mod damage;
pub mod escapes;
pub mod exhaustive;
pub mod fixed;
mod grammar;
pub mod nested;
pub mod parts;
pub mod random;
pub mod rfc8259;
pub mod spaced;
pub mod states;
pub mod strings;
pub mod tallies;
mod told;
pub mod utf8;

use crate::source::DocId;
use exhaustive::Exhaustive;
use random::Random;

/// Any id, often the least or the greatest.
pub fn any_doc(random: &mut Random) -> DocId {
    match random.below(4) {
        0 => DocId(0),
        1 => DocId(u32::MAX),
        _ => DocId(random.next() as u32),
    }
}

/// An endless supply of texts: the fixed ones first, then in turn the next of
/// all short texts, a random one over the same bytes, one that resembles RCL,
/// a damaged copy of such a one, and a character in some context.
pub struct Texts {
    random: Random,
    longest: usize,
    fixed: std::vec::IntoIter<Vec<u8>>,
    exhaustive: Exhaustive,
    turn: usize,
}

impl Texts {
    /// Texts of at most `longest` bytes.
    pub fn new(seed: u64, longest: usize) -> Texts {
        Texts {
            random: Random::new(seed),
            longest,
            fixed: fixed::texts().into_iter(),
            exhaustive: Exhaustive::new(),
            turn: 0,
        }
    }

    /// The same without the fixed texts, to see what the others reach.
    pub fn without_fixed(seed: u64, longest: usize) -> Texts {
        Texts {
            fixed: Vec::new().into_iter(),
            ..Texts::new(seed, longest)
        }
    }

    fn generated(&mut self) -> Vec<u8> {
        self.turn += 1;
        match self.turn % 5 {
            1 => self.exhaustive.next_text(),
            2 => exhaustive::random_text(&mut self.random, self.longest),
            3 => grammar::text(&mut self.random, self.longest),
            4 => damage::text(&mut self.random, self.longest),
            _ => contexts::text(&mut self.random),
        }
    }
}

impl Iterator for Texts {
    type Item = Vec<u8>;

    fn next(&mut self) -> Option<Vec<u8>> {
        let mut text = match self.fixed.next() {
            Some(text) => text,
            None => self.generated(),
        };
        text.truncate(self.longest);
        Some(text)
    }
}
