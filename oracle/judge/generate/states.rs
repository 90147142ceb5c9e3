//! States of a walker made by hand: positions inside, at and past the end of the text, any
//! depth, stacks with any codes and words, and what a walker is told that it keeps. Most are
//! such as no walk reaches.

use super::accepted::Supply;
use super::any_doc;
use super::random::Random;
use super::told::any_told;
use crate::lent::{lengths, Lengths};
use crate::refusal::Refusal;
use crate::source::DocId;
use crate::strings::{Words, LONGEST};
use crate::walker::told::Told;
use crate::walker::{Place, Stack};

/// What a step is given.
#[derive(Clone, Debug)]
pub struct State {
    pub text: Vec<u8>,
    pub doc: DocId,
    pub before: Place,
    pub told: Told,
    pub stack: Stack,
}

impl State {
    /// The walker of a text at this place, with this kept.
    pub fn walking(
        text: &[u8],
        doc: DocId,
        kept: Option<Refusal>,
        before: Place,
        stack: Stack,
    ) -> State {
        State {
            text: text.to_vec(),
            doc,
            before,
            told: Told::of(kept),
            stack,
        }
    }
}

/// An endless supply of them.
pub struct States {
    random: Random,
    supply: Supply,
}

const OPENERS: [u8; 8] = [5, 6, 7, 8, 14, 33, 35, 37];

const MOST_PLACES: usize = 12;

impl States {
    pub fn new(seed: u64) -> States {
        States {
            random: Random::new(seed),
            supply: Supply::new(!seed),
        }
    }

    pub fn next_state(&mut self) -> State {
        let (text, looked_at) = self.text();
        let doc = any_doc(&mut self.random);
        let places = self.random.below(MOST_PLACES + 1);
        let lengths = lengths(&mut self.random, places);
        let before = Place {
            position: self.position(text.len(), looked_at),
            depth: self.depth(places),
        };
        let told = any_told(&mut self.random, text.len(), doc);
        let stack = self.stack(&text, doc, lengths);
        State {
            text,
            doc,
            before,
            told,
            stack,
        }
    }

    /// A text, and a position in it. One text in six has some bytes over 127 at that
    /// position or behind a backslash there: a step is not to count on UTF-8.
    fn text(&mut self) -> (Vec<u8>, usize) {
        let mut text = self.supply.any_text();
        let at = self.random.below(text.len() + 1);
        if !self.random.once_in(6) {
            return (text, at);
        }
        let count = self.random.between(1, 4);
        for byte in text.iter_mut().skip(at).take(count) {
            *byte = self.random.byte() | 0x80;
        }
        if at == 0 || self.random.once_in(2) {
            return (text, at);
        }
        text[at - 1] = b'\\';
        (text, at - 1)
    }

    fn position(&mut self, len: usize, looked_at: usize) -> usize {
        match self.random.below(40) {
            0..=5 => len,
            6 => len + 1 + self.random.below(3),
            7 => usize::MAX - self.random.below(2),
            8 => LONGEST as usize + self.random.below(2),
            9 => 0,
            10..=13 => len.saturating_sub(self.random.below(8)),
            14..=19 => self.random.below(len + 1),
            _ => looked_at,
        }
    }

    /// Mostly within the stack, and often a full one.
    fn depth(&mut self, places: usize) -> usize {
        match self.random.below(40) {
            0 => places + 1,
            1 => places + 1 + self.random.below(4),
            2 => usize::MAX - self.random.below(2),
            3 => 1 << 63,
            4..=9 => 0,
            10..=19 => places,
            _ => self.random.below(places + 1),
        }
    }

    fn stack(&mut self, text: &[u8], doc: DocId, lengths: Lengths) -> Stack {
        let kinds = (0..lengths.kinds).map(|_| self.kind()).collect();
        let mut words: Vec<u64> = Vec::with_capacity(lengths.words + 1);
        while words.len() < lengths.words {
            let Words { low, high } = self.words(text, doc);
            words.extend([low, high]);
        }
        words.truncate(lengths.words);
        Stack { kinds, words }
    }

    /// Mostly that of an opener; else near one, or any.
    fn kind(&mut self) -> u8 {
        let opener = OPENERS[self.random.below(OPENERS.len())];
        match self.random.below(24) {
            0 => self.random.byte(),
            1 => self.random.below(60) as u8,
            2 => opener - 1,
            3 => opener + 1,
            _ => opener,
        }
    }

    /// A span of the text, or any two words: a step reads no opener's span.
    fn words(&mut self, text: &[u8], doc: DocId) -> Words {
        if self.random.once_in(2) {
            return Words {
                low: self.random.next(),
                high: self.random.next(),
            };
        }
        let start = self.random.below(text.len() + 1) as u64;
        Words::new(doc.0, start, start + self.random.below(4) as u64)
    }
}
