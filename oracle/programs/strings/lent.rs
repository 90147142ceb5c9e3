//! What the calls of the fixed list are lent: arrays that are the beginnings of longer ones,
//! every byte of which holds a mark before the call.

/// What each byte of lent memory holds before a call.
pub const MARK: u8 = 0xee;

/// The lengths of the two arrays of a list or a stack: kinds and span words.
#[derive(Copy, Clone)]
pub struct Lengths {
    pub kinds: usize,
    pub words: usize,
}

impl Lengths {
    /// With so many places: arrays just as long, or longer ones. Three times in five the
    /// number of words is odd, and half of it is rounded down.
    pub fn with(places: usize, turn: usize) -> Lengths {
        let (kinds, words) = [(0, 0), (1, 1), (0, 1), (2, 0), (3, 1)][turn % 5];
        Lengths {
            kinds: places + kinds,
            words: 2 * places + words,
        }
    }

    pub fn written(self) -> String {
        format!("{} {}", self.kinds, self.words)
    }
}

/// A number that a text decides.
pub fn turn(text: &[u8]) -> usize {
    text.iter().map(|byte| *byte as usize).sum()
}

/// How far the arrays of a list or a stack are written that has so many entries.
pub fn ends(entries: usize) -> String {
    format!("{entries} {}", 2 * entries)
}
