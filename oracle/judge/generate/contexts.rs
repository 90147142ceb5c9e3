//! One character in each place where its class matters, to find the ends of
//! every range of bytes.

use super::random::Random;

/// What stands before and after the character.
const CONTEXTS: [(&str, &str); 44] = [
    ("", ""),
    ("", "a"),
    (" ", " "),
    ("a", ""),
    ("a", "z"),
    ("a-", "z"),
    ("_", "-"),
    ("tru", ""),
    ("1", "1"),
    ("0", "1"),
    ("0x", ""),
    ("0xf_", "f"),
    ("0b", ""),
    ("0b1", "1"),
    ("1.", "5"),
    ("1.5", "5"),
    ("1e", "5"),
    ("0e+", "5"),
    ("1e5", "5"),
    ("\"", "\""),
    ("\"a", "b\""),
    ("\"\\", "\""),
    ("f\"\\", "\""),
    ("\"\\u", "12F\""),
    ("\"\\u12f", "\""),
    ("\"\\u{", "}\""),
    ("\"\\u{1F60", "}\""),
    ("\"\\u{1", "\""),
    ("f\"", "\""),
    ("f\"a", "b\""),
    ("\"\"\"", "\"\"\""),
    ("f\"\"\"a", "b\"\"\""),
    ("f\"{", "}\""),
    ("f\"{a", "}\""),
    ("// ", "b"),
    ("#", "b"),
    ("/", "/"),
    ("f", "\""),
    (".", "."),
    ("=", "="),
    ("({[", "]})"),
    ("\n", "\n"),
    ("\x0b", "\x0b"),
    ("\u{e9}", "\u{e9}"),
];

/// The ends of the ranges that the rules name, and their neighbours.
const ENDS: &[u8] =
    b"\x00\x08\t\n\x0b\x0c\r\x0e\x1f !\"#+,-./01289:;<=>?@AFGZ[\\]^_`abefguxz{|}~\x7f";

/// Characters whose UTF-8 form has the least and the greatest bytes.
const OVER_127: [&str; 10] = [
    "\u{80}",
    "\u{bf}",
    "\u{c0}",
    "\u{7ff}",
    "\u{800}",
    "\u{2000}",
    "\u{ffff}",
    "\u{10000}",
    "\u{40000}",
    "\u{10ffff}",
];

pub fn text(random: &mut Random) -> Vec<u8> {
    let (before, after) = CONTEXTS[random.below(CONTEXTS.len())];
    [before.as_bytes(), &character(random), after.as_bytes()].concat()
}

fn character(random: &mut Random) -> Vec<u8> {
    match random.below(8) {
        0 => random.pick(&OVER_127).as_bytes().to_vec(),
        1 => vec![random.byte()],
        2 | 3 => vec![random.byte() & 0x7f],
        _ => vec![ENDS[random.below(ENDS.len())]],
    }
}
