//! Texts that nest deeply, because the others seldom open more than a few things
//! at once and the stack of openers wants more.

use super::random::Random;

/// What opens, and what closes it again. The last two open two things each.
const PAIRS: [(&str, &str); 5] = [
    ("(", ")"),
    ("[", "]"),
    ("{", "}"),
    ("f\"{", "}\""),
    ("f\"\"\"a{", "}b\"\"\""),
];

const BETWEEN: [&str; 6] = ["", "", "", " ", "x", "// }\n"];

/// A text of at most `longest` bytes that opens up to `deepest` pairs. One in
/// three is cut short, one in four has a wrong closer.
pub fn text(random: &mut Random, deepest: usize, longest: usize) -> Vec<u8> {
    let mut out = String::new();
    let mut closers = Vec::new();
    for _ in 0..random.between(1, deepest) {
        let (open, close) = PAIRS[random.below(PAIRS.len())];
        out.push_str(open);
        out.push_str(random.pick(&BETWEEN));
        closers.push(close);
    }
    if random.once_in(4) {
        let at = random.below(closers.len());
        closers[at] = PAIRS[random.below(PAIRS.len())].1;
    }
    for close in closers.iter().rev() {
        out.push_str(close);
        out.push_str(random.pick(&["", "", " "]));
    }
    let mut text = out.into_bytes();
    if random.once_in(3) {
        text.truncate(random.below(text.len() + 1));
    }
    text.truncate(longest);
    text
}
