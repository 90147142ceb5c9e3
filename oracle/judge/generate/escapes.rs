//! Escape sequences: all that the lexer finds of some forms, and calls that are made by
//! hand.

use super::random::Random;
use crate::strings::{Words, LONGEST};

/// Every `\u` with four digits, in small letters, in capitals, and mixed.
pub fn all_unicode4(random: &mut Random) -> Vec<Vec<u8>> {
    let mut escapes = Vec::new();
    for number in 0..=0xffff {
        let small = format!("\\u{number:04x}").into_bytes();
        let digits = small[2..].to_ascii_uppercase();
        escapes.push([b"\\u", &digits[..]].concat());
        escapes.push(mixed(random, &small));
        escapes.push(small);
    }
    escapes
}

/// Some digits of an escape in capitals.
fn mixed(random: &mut Random, escape: &[u8]) -> Vec<u8> {
    let mut escape = escape.to_vec();
    for byte in &mut escape[2..] {
        if random.once_in(2) {
            byte.make_ascii_uppercase();
        }
    }
    escape
}

/// Each byte after a backslash. Some are no escape to the lexer.
pub fn all_single() -> Vec<Vec<u8>> {
    (0..=0x7f).map(|byte| vec![b'\\', byte]).collect()
}

/// The numbers at which the UTF-8 form or the refusal changes.
const LIMITS: [u32; 12] = [
    0x0, 0x7f, 0x80, 0x7ff, 0x800, 0xd7ff, 0xd800, 0xdfff, 0xe000, 0xffff, 0x10ffff, 0xffffff,
];

/// `\u{..}` with up to 8 digits, around each limit, in both cases, with leading zeros.
pub fn all_delimited() -> Vec<Vec<u8>> {
    let mut escapes = vec![b"\\u{}".to_vec()];
    for limit in LIMITS {
        for number in limit.saturating_sub(2)..=limit + 2 {
            for digits in 1..=8 {
                escapes.push(format!("\\u{{{number:0digits$x}}}").into_bytes());
                escapes.push(format!("\\u{{{number:0digits$X}}}").into_bytes());
            }
        }
    }
    escapes
}

/// Good ones first, then such as have no value or a wrong form.
pub const SINGLE: [&[u8]; 12] = [
    b"\\n", b"\\\"", b"\\{", b"\\}", b"\\t", b"\\/", b"\\N", b"\\x", b"\\\n", b"\\", b"\\u",
    b"\\\x80",
];

pub const UNICODE4: [&[u8]; 8] = [
    b"\\u0041",
    b"\\u00e9",
    b"\\uFfFf",
    b"\\uD800",
    b"\\u004",
    b"\\u00410",
    b"\\u00g1",
    b"\\U0041",
];

pub const DELIMITED: [&[u8]; 13] = [
    b"\\u{41}",
    b"\\u{10FFFF}",
    b"\\u{000041}",
    b"\\u{}",
    b"\\u{0000041}",
    b"\\u{110000}",
    b"\\u{dfff}",
    b"\\u{1F600}",
    b"\\u{g}",
    b"\\u{41",
    b"\\u{",
    b"\\u{7ff}",
    b"\\u}",
];

/// A call by hand: a text, a span, a kind.
pub struct ByHand {
    pub text: Vec<u8>,
    pub at: Words,
    pub kind: u8,
}

/// Mostly the span and the kind of an escape that stands in the text; else one of them
/// is wrong.
pub fn by_hand(random: &mut Random) -> ByHand {
    let (right, mut escape) = escape(random);
    if random.once_in(4) {
        replace(random, &mut escape);
    }
    let before = random.below(10);
    let mut text = vec![b'a'; before];
    text.extend_from_slice(&escape);
    let after = random.below(4);
    text.extend((0..after).map(|_| AFTER[random.below(AFTER.len())]));
    let at = span(
        random,
        before as u64,
        (before + escape.len()) as u64,
        text.len() as u64,
    );
    let kind = match random.below(12) {
        0 => random.byte(),
        1 => random.between(10, 14) as u8,
        _ => right,
    };
    ByHand { text, at, kind }
}

fn escape(random: &mut Random) -> (u8, Vec<u8>) {
    match random.below(4) {
        0 => (11, vec![b'\\', random.byte()]),
        1 => (11, random.pick(&SINGLE).to_vec()),
        2 => (12, random.pick(&UNICODE4).to_vec()),
        _ => (13, random.pick(&DELIMITED).to_vec()),
    }
}

/// The ends of the ranges of hexadecimal digits, and what makes an escape.
const AFTER: &[u8] = b"09afAF/:@G`g}{\\u ";

fn replace(random: &mut Random, escape: &mut [u8]) {
    let at = random.below(escape.len());
    escape[at] = match random.below(4) {
        0 => random.byte(),
        _ => AFTER[random.below(AFTER.len())],
    };
}

fn span(random: &mut Random, start: u64, end: u64, len: u64) -> Words {
    let doc = random.next() as u32;
    match random.below(24) {
        0 => Words::new(doc, end, start),
        1 => Words::new(doc, start, len + random.below(3) as u64),
        2 => Words::new(doc, start + 1, end + 1),
        3 => Words::new(doc, start, end.saturating_sub(1)),
        4 => Words::new(doc, start, end + 1),
        5 => Words::new(doc, start, start),
        6 => Words::new(doc, start, end + 0x1_0000),
        7 => Words::new(doc, start, LONGEST),
        8 => Words {
            low: random.next(),
            high: random.next(),
        },
        _ => Words::new(doc, start, end),
    }
}
