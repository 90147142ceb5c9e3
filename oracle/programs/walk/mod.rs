//! Walks from the opening, with the answer of each step.

use judge::codes;
use judge::generate::random::Random;
use judge::generate::{nested, spaced, strings, Texts};
use judge::reference::{trace, Listed};
use judge::source::DocId;
use judge::walker::{walk, Given, Place, Stepped};

use crate::strings::lent::{ends, turn, Lengths};
use crate::strings::tidy::{written, written_refusal};
use crate::strings::{hexadecimal, Line};

/// So that a call fits a line.
const LONGEST_TEXT: usize = 120;

/// How deeply sampled texts nest that are made for it.
const DEEPEST: usize = 10;

/// As many places as a call of the list may lend, and as many steps as it may take.
const MOST_OPEN: usize = 64;
const MOST_STEPS: usize = 40;

/// A text, its id, the places of the stack, and how many steps are taken.
pub struct Walk {
    text: Vec<u8>,
    doc: DocId,
    stack: usize,
    steps: usize,
}

impl Walk {
    pub fn line(&self) -> Line {
        let (doc, steps) = (self.doc.0, self.steps);
        let lengths = Lengths::with(self.stack, turn(&self.text) + self.stack);
        let answers = walk(&trace(&self.text, self.doc), self.stack);
        let last = answers.len() - 1;
        let taken: Vec<&Stepped> = (0..steps).map(|step| &answers[step.min(last)]).collect();
        let written: String = taken
            .iter()
            .map(|step| written_step(step) + " ; ")
            .collect();
        let (lengths, bytes) = (lengths.written(), hexadecimal(&self.text));
        (
            format!("walk {doc} {lengths} {steps} {bytes}"),
            format!("{}{}", written.trim_end(), written_stack(&taken)),
        )
    }
}

/// The stack after these steps, and how far its arrays are written. "Only an opener writes
/// to the stack, at the place numbered by the depth before it".
fn written_stack(taken: &[&Stepped]) -> String {
    let mut stack: Vec<Listed> = Vec::new();
    for stepped in taken {
        if let Given::Lexeme(lexeme) = stepped.given {
            if codes::is_opener(lexeme.code) {
                let place = stepped.after.depth - 1;
                stack.resize(stack.len().max(place + 1), lexeme);
                stack[place] = lexeme;
            }
        }
    }
    let opener = |opener: &Listed| format!(" {} {}", opener.code, written(opener.span));
    let openers: String = stack.iter().map(opener).collect();
    format!("{openers} ; {}", ends(stack.len()))
}

fn written_step(stepped: &Stepped) -> String {
    let given = match stepped.given {
        Given::Lexeme(lexeme) => format!("lexeme {} {}", lexeme.code, written(lexeme.span)),
        Given::Ended => "ended".to_string(),
        Given::Refused(refusal) => written_refusal(refusal),
    };
    let Place { position, depth } = stepped.after;
    format!("{given} {position} {depth}")
}

// Which calls.

/// Document 01's example, its traps and marked pairs, Spaces and Blanks, each refusal that
/// a walk can give, and what is open in each way where the text ends.
const CHOSEN: [&[u8]; 74] = [
    b"a = f\"{b-1}\";",
    b"f\"{a // b}\"\n}\"",
    b"",
    b"01",
    b"1..2",
    b"x-->y",
    b"1e+",
    b"0b_",
    b"\x0b\n",
    b"f\"{a // b}\"",
    b"(]",
    b"\"\\u{}\"",
    b" ",
    b"\n\n",
    b" a \n b \n\n c\t",
    b"// c\n\nx",
    b"#! s\n//",
    b"a #! b",
    b"{[()]}",
    b"((()))",
    b"{f\"{[(\"\")]}\"}",
    b"f\"a{f\"b{f\"c{d}\"}\"}\"",
    b"f\"\"\"{\"\"\"x\"\"\"}\"\"\"",
    b"f\"{ }{ }\"",
    b"f\"{{}}\"",
    b"\"{a}\"",
    b"\"\"\"\n  a\n\n  b\"\"\"",
    b"\"\\n\\u0041\\u{41}z\"",
    b"let x=[1,2.5e-3]; not x",
    b"0xA 0b1 ... .. . -> =>",
    b"\"h\xc3\xa9\" // \xe2\x82\xac",
    b"\xe2\x82A",
    b"ab\x80",
    b"\"\xed\xa0\x80\"",
    b"a\x00",
    b"\x01\r\n\t\x7f x",
    b"a \xc3\xa9\xe2\x82\xac b",
    b"a ? b",
    b"[#",
    b"0b2",
    b"0x__g",
    b"( 1.",
    b"1.5E-",
    b"\"\\u{12",
    b"f\"\\u{1g}\"",
    b"\"\\u12\"",
    b"\"a\\",
    b"\"\\\n\"",
    b"f\"\\\r\n\"",
    b"\"\\\xe2\x82\xac\xcc\x81\"",
    b"f\"\"\"\\\xf0\x9f\x98\x80",
    b"()) ",
    b"]",
    b"a}",
    b"(}",
    b"[)",
    b"{ ]",
    b"f\"{)\"",
    b"f\"{(}\"",
    b"(",
    b"[ ",
    b"{a",
    b"([{",
    b"f\"{",
    b"f\"\"\"{ \"x\" ",
    b"\"",
    b"\"\"\"",
    b"\"\"\"\"",
    b"\"a",
    b"f\"",
    b"f\"\"\"",
    b"f\"\"\"\"\"",
    b"f\"{}",
    b"f\"{f\"",
];

const DOCS: [u32; 3] = [0, 1, u32::MAX];

/// The chosen texts, each with as many places as it needs or more, and with too few where
/// it opens anything; and as many sampled ones.
pub fn calls(seed: u64, sampled: usize) -> Vec<Walk> {
    let mut random = Random::new(seed + 4);
    let mut calls = Vec::new();
    for text in CHOSEN {
        calls.extend(walks(&mut random, text));
    }
    for text in sampled_texts(seed, sampled) {
        calls.extend(walks(&mut random, &text));
    }
    calls
}

/// Those of the generators in turn, as far as a call has room for them.
fn sampled_texts(seed: u64, count: usize) -> Vec<Vec<u8>> {
    let mut random = Random::new(seed + 5);
    let others = Texts::without_fixed(seed + 5, LONGEST_TEXT);
    let of_turn = |(turn, other): (usize, Vec<u8>)| match turn % 4 {
        0 => nested::text(&mut random, DEEPEST, LONGEST_TEXT),
        1 => spaced::text(&mut random, LONGEST_TEXT),
        2 => strings::text(&mut random, LONGEST_TEXT),
        _ => other,
    };
    let texts = others.enumerate().map(of_turn);
    let fitting = texts.filter(|text| text.len() <= LONGEST_TEXT);
    fitting.take(count).collect()
}

fn walks(random: &mut Random, text: &[u8]) -> Vec<Walk> {
    assert!(text.len() <= LONGEST_TEXT, "A call fits a line.");
    let doc = DocId(DOCS[random.below(DOCS.len())]);
    let taken = trace(text, doc).taken;
    let deepest = taken.iter().map(|taken| taken.depth_after).max();
    let deepest = deepest.unwrap_or(0);
    let more = [0, 1, MOST_OPEN][random.below(3)];
    let mut walks = vec![walk_with(random, text, doc, deepest + more)];
    if deepest > 0 {
        let less = random.below(deepest);
        walks.push(walk_with(random, text, doc, less));
    }
    walks
}

/// To the end and up to three steps further, or as far as a call may go.
fn walk_with(random: &mut Random, text: &[u8], doc: DocId, places: usize) -> Walk {
    let stack = places.min(MOST_OPEN);
    let steps = walk(&trace(text, doc), stack).len() + random.below(4);
    Walk {
        text: text.to_vec(),
        doc,
        stack,
        steps: steps.min(MOST_STEPS),
    }
}
