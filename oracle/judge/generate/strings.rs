//! Texts that are mostly strings: triple quotes with indented and blank lines, escapes,
//! holes with strings in them. The lexer accepts nearly all of them.

use super::random::Random;

/// A text of one or two strings, with about `longest` bytes at most.
pub fn text(random: &mut Random, longest: usize) -> Vec<u8> {
    let full = random.below(longest + 1);
    let mut writer = Writer {
        random,
        out: String::new(),
        full,
    };
    writer.document();
    writer.out.into_bytes()
}

struct Writer<'a> {
    random: &'a mut Random,
    out: String,
    /// Nothing new is begun from this length on.
    full: usize,
}

const WORDS: [&str; 12] = [
    "a",
    "b c",
    "scan",
    " ",
    "  ",
    "x ",
    " y",
    "'",
    "//",
    "h\u{e9}",
    "\u{65e5}",
    "\u{1f600}",
];

/// What the lexer takes for an escape; half of them have no value.
const ESCAPES: [&str; 28] = [
    "\\\"",
    "\\\\",
    "\\/",
    "\\b",
    "\\f",
    "\\n",
    "\\r",
    "\\t",
    "\\{",
    "\\}",
    "\\u0041",
    "\\u00e9",
    "\\u20AC",
    "\\u{41}",
    "\\u{1F600}",
    "\\u{10ffff}",
    "\\u{000041}",
    "\\uFFFF",
    "\\N",
    "\\Z",
    "\\x",
    "\\ ",
    "\\'",
    "\\uD800",
    "\\udFFF",
    "\\u{}",
    "\\u{0000041}",
    "\\u{110000}",
];

/// The first so many of them have a value.
const GOOD_ESCAPES: usize = 18;

const LINE_BEGINNINGS: [&str; 10] = [
    "\n", "\n  ", "\n  ", "\n    ", "\n    ", "\n   ", "\n ", "\n      ", "\n\t", "\n \r",
];

const BLANK_LINES: [&str; 5] = ["\n", "\n", "\n ", "\n    ", "\n        "];

const IN_HOLES: [&str; 9] = [
    "",
    "x",
    " a ",
    "1 + b",
    "{}",
    "[\"k\"]",
    "(y)",
    " // }\n",
    "\"\"\"\n z\"\"\"",
];

/// How deeply strings stand in holes of strings.
const DEEPEST: usize = 3;

impl Writer<'_> {
    fn document(&mut self) {
        let strings = self.random.between(1, 2);
        for _ in 0..strings {
            self.one_of(&["", "", "", "a = ", "[1, "]);
            self.string(DEEPEST);
            self.one_of(&["", "", ";", "]", "\n"]);
        }
    }

    fn one_of(&mut self, choices: &[&str]) {
        let choice = self.random.pick(choices);
        self.out.push_str(choice);
    }

    fn string(&mut self, levels: usize) {
        let format = self.random.once_in(2) && levels > 0;
        let triple = !self.random.once_in(3);
        let quote = if triple { "\"\"\"" } else { "\"" };
        // A string with few escapes that have no value has a value more often.
        let flawed = self.random.once_in(5);
        self.out.push_str(if format { "f" } else { "" });
        self.out.push_str(quote);
        for _ in 0..self.random.below(7) {
            if self.out.len() >= self.full {
                break;
            }
            self.part(levels, format, triple, flawed);
        }
        self.out.push_str(quote);
    }

    fn part(&mut self, levels: usize, format: bool, triple: bool, flawed: bool) {
        match self.random.below(9) {
            0 | 1 => self.one_of(&WORDS),
            2 | 3 if triple => self.line(),
            4 if triple => self.one_of(&BLANK_LINES),
            2 => self.line(),
            5 | 6 => self.escape(flawed),
            _ if format => self.hole(levels),
            _ => self.one_of(&WORDS),
        }
    }

    fn line(&mut self) {
        self.one_of(&LINE_BEGINNINGS);
        if !self.random.once_in(4) {
            self.one_of(&WORDS);
        }
    }

    fn escape(&mut self, flawed: bool) {
        match flawed {
            true => self.one_of(&ESCAPES),
            false => self.one_of(&ESCAPES[..GOOD_ESCAPES]),
        }
    }

    fn hole(&mut self, levels: usize) {
        self.out.push('{');
        match self.random.below(3) {
            0 if levels > 0 => self.string(levels - 1),
            _ => self.one_of(&IN_HOLES),
        }
        self.out.push('}');
    }
}
