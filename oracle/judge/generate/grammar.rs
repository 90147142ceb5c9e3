//! Texts that resemble RCL: statements, nested format strings, notes in several
//! scripts. Some have a flaw on purpose; the others are accepted or nearly so.

use super::random::Random;

/// A text of at most `longest` bytes.
pub fn text(random: &mut Random, longest: usize) -> Vec<u8> {
    for _ in 0..8 {
        let written = attempt(random, longest);
        if written.len() <= longest {
            return written;
        }
    }
    attempt(random, longest)
}

fn attempt(random: &mut Random, longest: usize) -> Vec<u8> {
    let full = random.between(0, longest);
    let flawed = random.once_in(3);
    let mut writer = Writer {
        random,
        out: Vec::new(),
        full,
        flawed,
    };
    writer.document();
    writer.out
}

struct Writer<'a> {
    random: &'a mut Random,
    out: Vec<u8>,
    /// Nothing new is begun from this length on.
    full: usize,
    flawed: bool,
}

const KEYWORDS: [&str; 14] = [
    "and", "assert", "else", "false", "for", "if", "import", "in", "let", "not", "null", "or",
    "trace", "true",
];

const NAMES: [&str; 16] = [
    "a", "b", "x1", "_", "_y", "stage", "move-x", "z--z", "f", "ff", "u", "e", "In", "nulls",
    "b-1", "not-x",
];

const OPERATORS: [&str; 23] = [
    "<", ">", "<=", ">=", "==", "!=", "->", "=>", "=", "!", "*", "+", ",", "-", ".", "..", "...",
    "/", ":", ";", "|", " - ", " . ",
];

const NOTES: [&str; 18] = [
    "scan",
    "field 2",
    "h\u{e9}llo",
    "Gr\u{fc}\u{df}e",
    "\u{3a9}\u{3bc}",
    "\u{41f}\u{440}\u{438}",
    "\u{5e9}\u{5dc}",
    "\u{645}\u{631}",
    "\u{65e5}\u{672c}\u{8a9e}",
    "\u{d55c}\u{ad6d}",
    "\u{e44}\u{e17}",
    "\u{928}\u{92e}",
    "\u{1f600}",
    "\u{10348}",
    "A\u{2262}\u{391}.",
    "e\u{301}",
    "\u{10ffff}",
    "'}#(",
];

/// Escapes that the lexer accepts, though some have no value.
const ESCAPES: [&str; 18] = [
    "\\\"",
    "\\\\",
    "\\/",
    "\\b",
    "\\f",
    "\\n",
    "\\r",
    "\\t",
    "\\{",
    "\\}",
    "\\u0041",
    "\\uD800",
    "\\u00e9",
    "\\u{1F600}",
    "\\u{}",
    "\\u{0000041}",
    "\\N",
    "\\x",
];

const BAD_ESCAPES: [&str; 13] = [
    "\\u{12",
    "\\u{",
    "\\u{g}",
    "\\u",
    "\\u12",
    "\\u123",
    "\\u00 ",
    "\\uG",
    "\\\n",
    "\\\r\n",
    "\\\u{e9}",
    "\\\u{20ac}",
    "\\\u{1f600}",
];

const SPACES: [&str; 12] = [
    " ", " ", " ", "  ", "    ", "\t", "\n", "\n  ", "\r\n", "\x0c", "\n\n", " \n \n ",
];

const BAD_TOKENS: [&str; 18] = [
    "\x0b",
    "\x01\n",
    "\x7f",
    "\x1b\t",
    "\u{e9}",
    "\u{65e5}\u{672c}",
    "$",
    "&",
    "@",
    "~",
    "`",
    "?",
    "%",
    "^",
    "'",
    "\\",
    "#",
    "# note",
];

impl Writer<'_> {
    fn document(&mut self) {
        if self.random.once_in(12) {
            self.put("#!/usr/bin/rcl\n");
        }
        self.items(4);
        if self.flawed {
            self.last_flaw();
        }
    }

    fn put(&mut self, piece: &str) {
        self.out.extend_from_slice(piece.as_bytes());
    }

    fn put_one_of(&mut self, pieces: &[&str]) {
        let piece = self.random.pick(pieces);
        self.put(piece);
    }

    fn is_full(&self) -> bool {
        self.out.len() >= self.full
    }

    fn flaw(&mut self, times: usize) -> bool {
        self.flawed && self.random.once_in(times)
    }

    /// Items until the text is full; `levels` bounds the nesting.
    fn items(&mut self, levels: usize) {
        while !self.is_full() {
            self.item(levels);
            self.separator();
        }
    }

    fn few_items(&mut self, levels: usize) {
        for _ in 0..self.random.below(4) {
            if self.is_full() {
                return;
            }
            self.item(levels);
            self.separator();
        }
    }

    fn separator(&mut self) {
        if !self.random.once_in(3) {
            self.put_one_of(&SPACES);
        }
    }

    fn item(&mut self, levels: usize) {
        if self.flaw(8) {
            return self.bad_token();
        }
        match self.random.below(16) {
            0 | 1 => self.put_one_of(&KEYWORDS),
            2 | 3 => self.identifier(),
            4 | 5 => self.number(),
            6 | 7 => self.put_one_of(&OPERATORS),
            8 => self.comment(),
            9 => self.statement(levels),
            10 | 11 => self.bracketed(levels),
            _ => self.string(levels),
        }
    }

    fn identifier(&mut self) {
        self.put_one_of(&NAMES);
        if self.random.once_in(4) {
            self.put_one_of(&["-", "--", "->", "-->", "-1", "_"]);
        }
    }

    fn comment(&mut self) {
        self.put_one_of(&["//", "// ", "#!"]);
        self.put_one_of(&NOTES);
        self.put_one_of(&["\n", "\n", "\r\n", "\n\n"]);
    }

    fn statement(&mut self, levels: usize) {
        self.put("let ");
        self.put_one_of(&NAMES);
        self.put(" = ");
        self.item(levels.saturating_sub(1));
        self.put(";");
    }

    fn bracketed(&mut self, levels: usize) {
        if levels == 0 {
            return self.identifier();
        }
        let (open, close) = match self.random.below(3) {
            0 => ("(", ")"),
            1 => ("[", "]"),
            _ => ("{", "}"),
        };
        self.put(open);
        self.few_items(levels - 1);
        if self.flaw(6) {
            return self.put_one_of(&[")", "]", "}", ""]);
        }
        self.put(close);
    }

    fn string(&mut self, levels: usize) {
        let format = self.random.once_in(2);
        let triple = self.random.once_in(3);
        let quote = if triple { "\"\"\"" } else { "\"" };
        self.put(if format { "f" } else { "" });
        self.put(quote);
        for _ in 0..self.random.below(5) {
            if self.is_full() {
                break;
            }
            self.string_part(levels, format, triple);
        }
        if !self.flaw(8) {
            self.put(quote);
        }
    }

    fn string_part(&mut self, levels: usize, format: bool, triple: bool) {
        match self.random.below(8) {
            0 | 1 => self.put_one_of(&NOTES),
            2 => self.put_one_of(&["\n", "\n  ", "\n    x", "\n  \n   y", " ", "\x0b"]),
            3 | 4 => self.escape(),
            5 if triple => self.put_one_of(&["\"", "\"\"", "\"x", "//\""]),
            _ if format => self.hole(levels),
            _ => self.put_one_of(&["{", "}", "//", "#!", "a", "'", "f"]),
        }
    }

    fn escape(&mut self) {
        if self.flaw(3) {
            return self.put_one_of(&BAD_ESCAPES);
        }
        self.put_one_of(&ESCAPES);
    }

    fn hole(&mut self, levels: usize) {
        if levels == 0 {
            return self.put("}");
        }
        self.put("{");
        self.few_items(levels - 1);
        if self.flaw(6) {
            return self.put_one_of(&[")", "]", "", "// x}"]);
        }
        self.put("}");
    }

    fn bad_token(&mut self) {
        match self.random.below(4) {
            0 => self.bad_number(),
            1 => self.put_one_of(&[")", "]", "}", "(", "[", "{"]),
            _ => self.put_one_of(&BAD_TOKENS),
        }
    }

    /// What can only be wrong at the very end of a text.
    fn last_flaw(&mut self) {
        match self.random.below(6) {
            0 => self.put_one_of(&["\"", "\"\"\"", "f\"", "f\"\"\""]),
            1 => self.put_one_of(&["\"\\", "\"\\u", "\"\\u{1", "f\"\\", "\"\"\"\\"]),
            2 => self.put_one_of(&["f\"{", "f\"\"\"{a", "f\"{\"x\""]),
            3 => self.put_one_of(&["(", "[", "{", "(a", "[(1)"]),
            4 => self.bad_number(),
            _ => {}
        }
    }

    fn number(&mut self) {
        match self.random.below(6) {
            0 => self.radix("0x", "0123456789abcdefABCDEF_"),
            1 => self.radix("0b", "01_"),
            _ => self.decimal(),
        }
    }

    fn radix(&mut self, prefix: &str, digits: &str) {
        self.put(prefix);
        self.put_one_of(&["", "", "_", "__"]);
        self.put("1");
        self.digits(digits);
    }

    fn decimal(&mut self) {
        self.whole();
        if self.random.once_in(2) {
            self.put(".");
            self.digit();
            self.digits("0123456789_");
        }
        if self.random.once_in(3) {
            self.put_one_of(&["e", "E", "e+", "E-", "e-"]);
            self.digit();
            self.digits("0123456789_");
        }
    }

    /// The part before the dot. After a 0 no digit belongs to the number.
    fn whole(&mut self) {
        if self.random.once_in(3) {
            return self.put_one_of(&["0", "0", "00", "0_", "07"]);
        }
        self.digit();
        self.digits("0123456789_");
    }

    fn bad_number(&mut self) {
        match self.random.below(4) {
            0 => self.put_one_of(&["0b", "0b_", "0b__", "0b2", "0ba"]),
            1 => self.put_one_of(&["0x", "0x_", "0x__", "0xg", "0x_ "]),
            2 => self.number_without_fraction(),
            _ => self.number_without_exponent(),
        }
    }

    fn number_without_fraction(&mut self) {
        self.whole();
        self.put_one_of(&[".", "..", "._1", ".e1", ". ", ".a"]);
    }

    fn number_without_exponent(&mut self) {
        self.decimal();
        self.put_one_of(&["e", "E", "e+", "e-", "e_", "else", "e+_1", "e "]);
    }

    fn digit(&mut self) {
        self.put_one_of(&["1", "2", "9", "5", "0"]);
    }

    /// Up to four more bytes of these.
    fn digits(&mut self, among: &str) {
        for _ in 0..self.random.below(5) {
            let at = self.random.below(among.len());
            self.put(&among[at..at + 1]);
        }
    }
}
