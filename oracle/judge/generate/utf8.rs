//! UTF-8 at the ends of its ranges, good and bad.

use super::random::Random;

/// The RFC's examples, known bad sequences, and the ends of each range.
pub fn texts() -> Vec<Vec<u8>> {
    let listed = [&RFC_3629[..], &BAD].concat();
    let mut texts: Vec<Vec<u8>> = listed.into_iter().map(<[u8]>::to_vec).collect();
    for form in &FORMS {
        texts.extend(around(form));
    }
    texts
}

/// The examples of RFC 3629, sections 3, 7 and 10.
const RFC_3629: [&[u8]; 9] = [
    b"",
    b"\x41\xe2\x89\xa2\xce\x91\x2e",
    b"\xed\x95\x9c\xea\xb5\xad\xec\x96\xb4",
    b"\xe6\x97\xa5\xe6\x9c\xac\xe8\xaa\x9e",
    b"\xef\xbb\xbf\xf0\xa3\x8e\xb4",
    b"\xed\xa1\x8c\xed\xbe\xb4",
    b"\xc0\x80",
    b"\x2f\xc0\xae\x2e\x2f",
    b"\xef\xbb\xbf",
];

/// Overlong forms, surrogates, what lies over 10FFFF, stray bytes.
const BAD: [&[u8]; 26] = [
    b"\xc0\xaf",
    b"\xc1\xbf",
    b"\xe0\x80\x80",
    b"\xe0\x80\xaf",
    b"\xe0\x9f\xbf",
    b"\xf0\x80\x80\x80",
    b"\xf0\x80\x80\xaf",
    b"\xf0\x8f\xbf\xbf",
    b"\xf8\x80\x80\x80\x80",
    b"\xfc\x80\x80\x80\x80\x80",
    b"\xed\xa0\x80",
    b"\xed\xaf\xbf",
    b"\xed\xb0\x80",
    b"\xed\xbf\xbf",
    b"\xed\xa0\x80\xed\xb0\x80",
    b"\xf4\x90\x80\x80",
    b"\xf4\xbf\xbf\xbf",
    b"\xf5\x80\x80\x80",
    b"\xf7\xbf\xbf\xbf",
    b"\xfe",
    b"\xff\xff",
    b"a\x80b",
    b"\xc3\xa9\xa9",
    b"\xe2\x82\xac\x82",
    b"\xf0\x9f\x98\x80\xbf",
    b"\xc3\xc3\xa9",
];

/// The alternatives of the RFC's grammar: the range of each byte.
pub const FORMS: [&[(u8, u8)]; 8] = [
    &[(0xc2, 0xdf), TAIL],
    &[(0xe0, 0xe0), (0xa0, 0xbf), TAIL],
    &[(0xe1, 0xec), TAIL, TAIL],
    &[(0xed, 0xed), (0x80, 0x9f), TAIL],
    &[(0xee, 0xef), TAIL, TAIL],
    &[(0xf0, 0xf0), (0x90, 0xbf), TAIL, TAIL],
    &[(0xf1, 0xf3), TAIL, TAIL, TAIL],
    &[(0xf4, 0xf4), (0x80, 0x8f), TAIL, TAIL],
];

const TAIL: (u8, u8) = (0x80, 0xbf);

fn least(form: &[(u8, u8)]) -> Vec<u8> {
    form.iter().map(|range| range.0).collect()
}

pub fn greatest(form: &[(u8, u8)]) -> Vec<u8> {
    form.iter().map(|range| range.1).collect()
}

/// The first and the last of a form, and each of its bytes just outside.
fn around(form: &[(u8, u8)]) -> Vec<Vec<u8>> {
    let mut texts = vec![least(form), greatest(form)];
    for (at, range) in form.iter().enumerate() {
        let mut low = least(form);
        low[at] = range.0 - 1;
        let mut high = greatest(form);
        high[at] = range.1 + 1;
        texts.extend([low, high]);
    }
    texts
}

// Random ones.

/// The ranges of scalar values by the length of their UTF-8 form.
const SCALARS: [(u32, u32); 5] = [
    (0x00, 0x7f),
    (0x80, 0x7ff),
    (0x800, 0xd7ff),
    (0xe000, 0xffff),
    (0x10000, 0x10ffff),
];

/// A random good sequence, often the first or the last of its length.
pub fn sequence(random: &mut Random) -> Vec<u8> {
    let (low, high) = SCALARS[random.below(SCALARS.len())];
    let scalar = match random.below(4) {
        0 => low,
        1 => high,
        _ => random.between(low as usize, high as usize) as u32,
    };
    let scalar = char::from_u32(scalar).expect("The ranges hold scalar values alone.");
    scalar.to_string().into_bytes()
}

/// A random bad sequence: cut short, overlong, a surrogate, over 10FFFF, stray.
pub fn bad_sequence(random: &mut Random) -> Vec<u8> {
    let tail = |random: &mut Random| 0x80 + random.below(0x40) as u8;
    let (a, b, c) = (tail(random), tail(random), tail(random));
    match random.below(8) {
        0 => truncated(random),
        1 => vec![0xc0 + random.below(2) as u8, a],
        2 => vec![0xe0, a & 0x9f, b],
        3 => vec![0xf0, a & 0x8f, b, c],
        4 => vec![0xed, a | 0x20, b],
        5 => vec![0xf4, a | 0x10, b, c],
        6 => vec![0xf5 + random.below(11) as u8, a, b, c],
        _ => vec![a],
    }
}

fn truncated(random: &mut Random) -> Vec<u8> {
    let mut bytes = sequence(random);
    while bytes.len() < 2 {
        bytes = sequence(random);
    }
    bytes.truncate(random.between(1, bytes.len() - 1));
    bytes
}
