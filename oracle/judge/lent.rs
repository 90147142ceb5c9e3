//! Arrays that are lent to a call: guards on both sides, a pattern inside, and what the
//! call left in them.

use crate::generate::random::Random;
use crate::strings::Entry;

/// Cells before and after each lent array, which must keep what they hold.
pub const GUARD: usize = 16;

/// A cell of a lent array, and what it holds before the call.
pub trait Cell: Copy + PartialEq + std::fmt::Debug {
    fn pattern(salt: u64, at: usize) -> Self;
}

impl Cell for u8 {
    fn pattern(salt: u64, at: usize) -> u8 {
        (salt as u8).wrapping_add((at as u8).wrapping_mul(37))
    }
}

impl Cell for u64 {
    fn pattern(salt: u64, at: usize) -> u64 {
        (salt ^ at as u64).wrapping_mul(0x9e37_79b9_7f4a_7c15)
    }
}

/// An array with guards on both sides, filled with a pattern.
pub struct Lent<T> {
    name: &'static str,
    salt: u64,
    cells: Vec<T>,
}

impl<T: Cell> Lent<T> {
    /// An array of no cell.
    pub fn new(name: &'static str) -> Lent<T> {
        let mut lent = Lent {
            name,
            salt: 0,
            cells: Vec::new(),
        };
        lent.fill(0, 0);
        lent
    }

    pub fn fill(&mut self, salt: u64, len: usize) {
        self.salt = salt;
        self.cells.clear();
        self.cells
            .extend((0..GUARD + len + GUARD).map(|at| T::pattern(salt, at)));
    }

    pub fn len(&self) -> usize {
        self.cells.len() - 2 * GUARD
    }

    pub fn pointer(&mut self) -> *mut T {
        self.cells[GUARD..].as_mut_ptr()
    }

    /// The array itself, without its guards.
    pub fn inside(&mut self) -> &mut [T] {
        let len = self.len();
        &mut self.cells[GUARD..GUARD + len]
    }

    /// What is wrong unless the array begins with `expected` and every other
    /// cell holds the pattern.
    pub fn wrong_after(&self, expected: impl ExactSizeIterator<Item = T>) -> Option<String> {
        let begun = GUARD + expected.len();
        self.touched(0, GUARD)
            .or_else(|| self.wrong_from(GUARD, expected))
            .or_else(|| self.touched(begun, self.cells.len()))
    }

    /// The same where the first `free` cells may hold anything.
    pub fn wrong_beyond(&self, free: usize) -> Option<String> {
        self.touched(0, GUARD)
            .or_else(|| self.touched(GUARD + free, self.cells.len()))
    }

    fn touched(&self, from: usize, to: usize) -> Option<String> {
        self.wrong_from(from, (from..to).map(|at| T::pattern(self.salt, at)))
    }

    fn wrong_from(&self, from: usize, expected: impl Iterator<Item = T>) -> Option<String> {
        let mut pairs = self.cells[from..].iter().zip(expected);
        let at = pairs.position(|(found, expected)| *found != expected)?;
        let cell = from + at;
        let (name, place) = (self.name, cell as isize - GUARD as isize);
        let (len, holds) = (self.len(), self.cells[cell]);
        Some(format!("  {name} of {len}, place {place} holds {holds:?}"))
    }
}

/// The lengths of the two arrays of a list or stack.
#[derive(Copy, Clone, Debug)]
pub struct Lengths {
    pub kinds: usize,
    pub words: usize,
}

/// Lengths that make so many places: often odd, or one array longer than the
/// other needs.
pub fn lengths(random: &mut Random, places: usize) -> Lengths {
    let more = random.between(1, 9);
    let odd = random.below(2);
    let (kinds, words) = match random.below(4) {
        0 => (places, 2 * places),
        1 => (places, 2 * places + 1),
        2 => (places, 2 * places + more),
        _ => (places + more, 2 * places + odd),
    };
    Lengths { kinds, words }
}

/// The two arrays of a list, to read or to fill.
pub struct LentList {
    pub kinds: Lent<u8>,
    pub words: Lent<u64>,
}

impl LentList {
    pub fn new(kinds: &'static str, words: &'static str) -> LentList {
        LentList {
            kinds: Lent::new(kinds),
            words: Lent::new(words),
        }
    }

    /// So many places with a pattern in them.
    pub fn fill(&mut self, random: &mut Random, places: usize) {
        let lengths = lengths(random, places);
        self.kinds.fill(random.next(), lengths.kinds);
        self.words.fill(random.next(), lengths.words);
    }

    /// As many places as the list has entries, with the list in them.
    pub fn put(&mut self, random: &mut Random, list: &[Entry]) {
        self.fill(random, list.len());
        let kinds = self.kinds.inside().iter_mut();
        kinds.zip(list).for_each(|(kind, entry)| *kind = entry.kind);
        let words = self.words.inside().chunks_exact_mut(2);
        words.zip(list).for_each(|(words, entry)| {
            words.copy_from_slice(&[entry.at.low, entry.at.high]);
        });
    }

    /// What is wrong unless the list begins with these entries and every other cell
    /// holds the pattern.
    pub fn wrong_after(&self, list: &[Entry]) -> Option<String> {
        let word = |at: usize| match at % 2 {
            0 => list[at / 2].at.low,
            _ => list[at / 2].at.high,
        };
        self.kinds
            .wrong_after(list.iter().map(|entry| entry.kind))
            .or_else(|| self.words.wrong_after((0..2 * list.len()).map(word)))
    }

    /// The same where the first `free` places may hold anything.
    pub fn wrong_beyond(&self, free: usize) -> Option<String> {
        self.kinds
            .wrong_beyond(free)
            .or_else(|| self.words.wrong_beyond(2 * free))
    }
}

/// A text in the midst of other bytes, at any alignment.
pub struct LentText {
    bytes: Vec<u8>,
    shift: usize,
    beyond: u8,
    /// The length that a call is told.
    len: usize,
}

/// Bytes that would change the last lexeme if they were read.
const BEYOND: &[u8] = b"\"}1a_-\\)]{.u\xa9\n=/e";

impl LentText {
    pub fn new() -> LentText {
        LentText {
            bytes: Vec::new(),
            shift: 0,
            beyond: 0,
            len: 0,
        }
    }

    pub fn put(&mut self, random: &mut Random, text: &[u8]) {
        self.shift = random.below(32);
        self.beyond = BEYOND[random.below(BEYOND.len())];
        self.bytes.clear();
        self.bytes.resize(self.shift, self.beyond);
        self.bytes.extend_from_slice(text);
        self.bytes.extend([self.beyond; 32]);
        self.len = text.len();
    }

    /// Tells a call another length than the text's: one that it has to refuse unread.
    pub fn claim(&mut self, len: usize) {
        self.len = len;
    }

    pub fn len(&self) -> usize {
        self.len
    }

    pub fn pointer(&self) -> *const u8 {
        self.bytes[self.shift..].as_ptr()
    }

    /// What is wrong unless the text and the bytes around it are as they were put.
    pub fn wrong(&self, text: &[u8]) -> Option<String> {
        let (before, held) = self.bytes.split_at(self.shift);
        let (held, after) = held.split_at(text.len());
        let mut around = before.iter().chain(after);
        let kept = held == text && around.all(|byte| *byte == self.beyond);
        (!kept).then(|| "  the text, or a byte beside it, was written to".to_string())
    }
}
