//! The texts that are measured, each of at least the size asked for: whole lines
//! are repeated with changing numbers.

/// More than any line has.
const LINE: usize = 4096;

/// Lines until the text has the size; `line` gets the line's number. The text does
/// not grow, so that it leaves no holes in the memory from which the Rust's list comes.
fn lines(size: usize, line: impl Fn(usize) -> String) -> Vec<u8> {
    let mut text = String::with_capacity(size + LINE);
    let mut number = 0;
    while text.len() < size {
        text.push_str(&line(number));
        number += 1;
    }
    text.into_bytes()
}

pub fn move_table(size: usize) -> Vec<u8> {
    lines(size, |n| {
        let (x, y) = (n % 1000, n * 7 % 400);
        format!("{{ x = {x}.5, y = -{y}.25e1, note = \"A{}\" }},\n", n % 97)
    })
}

pub fn comments(size: usize) -> Vec<u8> {
    let words = "the stage waits until the lamp is warm and the cover is shut; ".repeat(16);
    lines(size, |n| format!("// {n}: {words}\n"))
}

pub fn format_strings(size: usize) -> Vec<u8> {
    lines(size, |n| {
        format!("f\"row {{a + f\"col {{b{n} + f\"cell {{c}} of {{d}}\"}}!\"}} end\",\n")
    })
}

pub fn indents(size: usize) -> Vec<u8> {
    lines(size, |n| {
        let indent = " ".repeat(40 + n % 80);
        format!("{indent}step{},\n", n % 10)
    })
}

/// A run of whitespace of so many bytes behind each lexeme: a space, or a line end and
/// the indentation after it.
pub fn runs(size: usize, length: usize) -> Vec<u8> {
    let run = match length {
        1 => " ".to_string(),
        _ => format!("\n{}", " ".repeat(length - 1)),
    };
    let words = ["step", "x", ",", "=", "12", "field"];
    lines(size, |n| format!("{}{run}", words[n % words.len()]))
}

pub fn strings(size: usize) -> Vec<u8> {
    let words = "scan from the left edge to the right edge, then down by one field; ".repeat(16);
    lines(size, |n| format!("note{n} = \"{words}\";\n"))
}

pub fn ascii_notes(size: usize) -> Vec<u8> {
    lines(size, |n| {
        format!("note{n} = \"field {n}: looks good, scan again\"; // by hand\n")
    })
}

pub fn mixed_notes(size: usize) -> Vec<u8> {
    let notes = [
        "Gr\u{fc}\u{df}e aus dem Labor, Feld",
        "\u{41f}\u{440}\u{438}\u{432}\u{435}\u{442}, \u{43f}\u{43e}\u{43b}\u{435}",
        "\u{65e5}\u{672c}\u{8a9e}\u{306e}\u{30e1}\u{30e2}",
        "smile \u{1f600} here",
        "plain words here",
    ];
    lines(size, |n| {
        let note = notes[n % notes.len()];
        format!("note{n} = \"{note} {n}\"; // {note}\n")
    })
}

/// Indents to take off, a blank line, and each form of escape.
pub fn triple_quoted(size: usize) -> Vec<u8> {
    lines(size, |n| {
        format!(
            r#"note{n} = """
    Step {n}: \"left\" edge,\tthen the right one
      deeper by two, \u00b5m and \u{{1f52c}}

    last line
    """;
"#
        )
    })
}

/// Numbers that look random (SplitMix64), and are the same in each run.
struct Numbers(u64);

impl Numbers {
    fn of_line(line: usize) -> Numbers {
        Numbers((line as u64) << 32)
    }

    fn below(&mut self, bound: u64) -> u64 {
        self.0 = self.0.wrapping_add(0x9e37_79b9_7f4a_7c15);
        let z = (self.0 ^ self.0 >> 30).wrapping_mul(0xbf58_476d_1ce4_e5b9);
        let z = (z ^ z >> 27).wrapping_mul(0x94d0_49bb_1331_11eb);
        (z ^ z >> 31) % bound
    }

    fn between(&mut self, least: u64, most: u64) -> u64 {
        least + self.below(most - least + 1)
    }

    fn word(&mut self) -> &'static str {
        WORDS[self.below(WORDS.len() as u64) as usize]
    }

    /// Words, each with what `after` puts behind it.
    fn words(&mut self, count: u64, after: impl Fn(&mut Numbers) -> &'static str) -> String {
        let mut words = String::new();
        for _ in 0..count {
            words.push_str(self.word());
            words.push_str(after(self));
        }
        words
    }
}

const WORDS: [&str; 16] = [
    "edge", "of", "the", "tissue", "is", "faint", "scan", "again", "with", "more", "light", "left",
    "right", "field", "a", "focus",
];

/// Names, notes and comments whose lengths cannot be foretold: in the other texts
/// a line is like the one before it, and the processor learns where each loop ends.
pub fn varied_notes(size: usize) -> Vec<u8> {
    lines(size, |n| {
        let numbers = &mut Numbers::of_line(n);
        let name = numbers.word();
        let count = numbers.between(1, 9);
        let note = numbers.words(count, |_| " ");
        let count = numbers.between(1, 6);
        match numbers.below(2) {
            0 => format!("{name}{n} = \"{note}\";\n"),
            _ => {
                let comment = numbers.words(count, |_| " ");
                format!("{name}{n} = \"{note}\"; // {comment}\n")
            }
        }
    })
}

/// Lines of varied lengths with escapes here and there, and empty lines.
pub fn varied_triple_quoted(size: usize) -> Vec<u8> {
    lines(size, |n| {
        let numbers = &mut Numbers::of_line(n);
        let mut note = String::new();
        for _ in 0..numbers.between(2, 5) {
            let count = numbers.between(2, 10);
            let line = numbers.words(count, |numbers| match numbers.below(12) {
                0 => r"\t",
                1 => ", ",
                2 => r#" \"x\" "#,
                _ => " ",
            });
            let end = ["\n", "\n", "\n", "\n", "\n", "\n\n"][numbers.below(6) as usize];
            note.push_str(&format!("    {line}{end}"));
        }
        format!("note{n} = \"\"\"\n{note}    \"\"\";\n")
    })
}
