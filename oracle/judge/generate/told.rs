//! What a walker is told that it keeps: what an opening gives, and words that are wrong in
//! one place or in all.

use super::random::Random;
use crate::source::DocId;
use crate::strings::{Words, LONGEST};
use crate::walker::told::Told;

/// Half of them keep nothing, one in eight a refusal as an opening gives it; the others are
/// wrong, but for some that chance puts right.
pub fn any_told(random: &mut Random, len: usize, doc: DocId) -> Told {
    match random.below(8) {
        0..=3 => Told::default(),
        4 => right(random, len, doc),
        5 | 6 => nearly_right(random, len, doc),
        _ => any(random, doc),
    }
}

/// 2 at 0-0, or 1 with an empty span inside the text or anywhere.
fn right(random: &mut Random, len: usize, doc: DocId) -> Told {
    let (number, at) = match random.below(8) {
        0..=2 => (2, 0),
        3 => (1, random.next() & LONGEST),
        4 => (1, LONGEST - random.below(2) as u64),
        5 => (1, 0),
        _ => (1, random.below(len + 1) as u64),
    };
    Told {
        kept: 1,
        number,
        at: Words::new(doc.0, at, at),
    }
}

/// A refusal as an opening gives it, wrong in one of its words.
fn nearly_right(random: &mut Random, len: usize, doc: DocId) -> Told {
    let told = right(random, len, doc);
    match random.below(4) {
        0 => Told {
            kept: wrong_kept(random),
            ..told
        },
        1 => Told {
            number: wrong_number(random, told.number),
            ..told
        },
        _ => Told {
            at: wrong_span(random, told.at),
            ..told
        },
    }
}

fn wrong_kept(random: &mut Random) -> u64 {
    match random.below(6) {
        0 | 1 => 0,
        2 => 2,
        3 => u64::MAX,
        // What 32 bits would take for 1.
        4 => (1 << 32) + 1,
        _ => random.next(),
    }
}

const WRONG_NUMBERS: [u8; 8] = [0, 3, 10, 31, 40, 99, 129, 255];

/// Another one; often 1 for 2, or 2 for 1.
fn wrong_number(random: &mut Random, number: u8) -> u8 {
    match random.below(4) {
        0 => 3 - number,
        1 => random.byte(),
        _ => WRONG_NUMBERS[random.below(WRONG_NUMBERS.len())],
    }
}

/// Of another id, with bytes in it, with its start after its end, elsewhere, or with one
/// bit changed.
fn wrong_span(random: &mut Random, at: Words) -> Words {
    let (doc, start) = (at.doc(), at.start());
    let more = |random: &mut Random| match random.below(3) {
        0 => 1,
        1 => 1 << random.below(48),
        _ => random.next() & LONGEST,
    };
    match random.below(6) {
        0 => Words::new(doc ^ (1 << random.below(32)), start, start),
        1 => Words::new(any_other(random, doc), start, start),
        2 => Words::new(doc, start, LONGEST.min(start + more(random))),
        3 => Words::new(doc, LONGEST.min(start + more(random)), start),
        4 => {
            let other = more(random);
            Words::new(doc, other, other)
        }
        _ => with_one_bit_changed(random, at),
    }
}

fn any_other(random: &mut Random, doc: u32) -> u32 {
    match doc {
        0 => (random.next() >> 32) as u32,
        _ => 0,
    }
}

fn with_one_bit_changed(random: &mut Random, at: Words) -> Words {
    let bit = 1 << random.below(64);
    match random.below(2) {
        0 => Words {
            low: at.low ^ bit,
            ..at
        },
        _ => Words {
            high: at.high ^ bit,
            ..at
        },
    }
}

/// Each word by itself, 0 more often than not: so also nothing kept beside one other word.
fn any(random: &mut Random, doc: DocId) -> Told {
    let id = (doc.0 as u64) << 32;
    let word = |random: &mut Random| match random.below(8) {
        0 => random.next(),
        1 => id,
        2 => 1,
        _ => 0,
    };
    Told {
        kept: [0, 0, 1, 1, 2, u64::MAX][random.below(6)],
        number: [0, 0, 1, 2, random.byte()][random.below(5)],
        at: Words {
            low: word(random),
            high: word(random),
        },
    }
}
