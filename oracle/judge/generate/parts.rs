//! Parts made by hand, to be handed back: of the text or of the output, inside and
//! outside, with the start after the end, and over the limit.

use super::random::Random;
use crate::strings::value::Held;
use crate::strings::LONGEST;

/// A part, where text and output have so many bytes.
pub fn part(random: &mut Random, text: usize, output: usize) -> Held {
    let of_text = random.once_in(2);
    let len = if of_text { text } else { output };
    let (start, end) = ends(random, len as u64);
    match of_text {
        true => Held::Text { start, end },
        false => Held::Output { start, end },
    }
}

fn ends(random: &mut Random, len: u64) -> (u64, u64) {
    let inside = |random: &mut Random| random.below(len as usize + 1) as u64;
    let (one, other) = (inside(random), inside(random));
    let (start, end) = (one.min(other), one.max(other));
    let few = random.below(4) as u64;
    match random.below(16) {
        0 => (start + 1, start),
        1 => (end + few, start),
        2 => (start, len + few),
        3 => (len + few, len + few),
        4 => (len, len),
        5 => (start, LONGEST - few),
        6 => (start, LONGEST + few),
        7 => (LONGEST + few, LONGEST + few),
        8 => (LONGEST - few, LONGEST),
        9 => (u64::MAX - few, u64::MAX),
        10 => (u64::MAX - few, start),
        11 => (start, end + 0x1_0000),
        12 => (start, random.next()),
        13 => (
            random.next() >> random.below(64),
            random.next() >> random.below(64),
        ),
        _ => (start, end),
    }
}
