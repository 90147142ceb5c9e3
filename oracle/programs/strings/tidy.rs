//! Calls of the tidy writer with their answers.

use judge::generate::accepted::Supply;
use judge::generate::random::Random;
use judge::generate::spaced;
use judge::reference::{trace, within, Answer, Counts, Listed, AMPLE};
use judge::refusal::Refusal;
use judge::respace::{respaced, tidied, Tidied};
use judge::source::{words, DocId, Span};

use super::lent::{ends, turn, Lengths, MARK};
use super::{hexadecimal, Line};

/// So that a call fits a line, and the prover computes it.
const LONGEST_TEXT: usize = 120;
const SAMPLED_TEXT: usize = 60;
const LONG_TEXTS: usize = 12;

/// As many places as a call of the list may lend.
const MOST_LISTED: usize = 160;
const MOST_OPEN: usize = 64;
const LONGEST_OUTPUT: usize = 256;

/// A text, its id, the places of list and stack, the output's length.
pub struct Tidy {
    pub text: Vec<u8>,
    pub doc: DocId,
    pub list: usize,
    pub stack: usize,
    pub output: usize,
}

impl Tidy {
    /// The answer, and the output after the call.
    pub fn tidied(&self) -> (Tidied, Vec<u8>) {
        let mut output = vec![MARK; self.output];
        let trace = trace(&self.text, self.doc);
        let tidied = tidied(&self.text, &trace, self.list, self.stack, &mut output);
        (tidied, output)
    }

    pub fn number(&self) -> u8 {
        self.tidied().0.answer.refusal.map_or(0, |r| r.number)
    }

    pub fn line(&self) -> Line {
        let (doc, output, bytes) = (self.doc.0, self.output, hexadecimal(&self.text));
        let lent = written_lent(&self.text, self.list, self.stack);
        let (Tidied { answer, written }, after) = self.tidied();
        (
            format!("tidy {doc} {lent} {output} {bytes}"),
            format!(
                "{} ; {written} {}",
                written_lexed(&answer),
                hexadecimal(&after)
            ),
        )
    }
}

/// The lengths of the arrays that a lexing call is lent, for so many places of list and
/// stack.
pub fn written_lent(text: &[u8], list: usize, stack: usize) -> String {
    let list = Lengths::with(list, turn(text) + list);
    let stack = Lengths::with(stack, turn(text) + stack + 1);
    format!("{} {}", list.written(), stack.written())
}

/// The verdict and the counts, the list, and how far list and stack are written: the stack
/// to the deepest nesting at most.
pub fn written_lexed(answer: &Answer) -> String {
    let listed: String = answer.listed.iter().map(written_lexeme).collect();
    let Counts {
        lexemes, deepest, ..
    } = answer.counts;
    let (list, stack) = (ends(lexemes), ends(deepest));
    format!("{} ;{listed} ; {list} {stack}", verdict_and_counts(answer))
}

fn written_lexeme(listed: &Listed) -> String {
    format!(" {} {}", listed.code, written(listed.span))
}

/// The verdict and the five counts.
fn verdict_and_counts(answer: &Answer) -> String {
    let verdict = match answer.refusal {
        None => "accepted".to_string(),
        Some(refusal) => written_refusal(refusal),
    };
    let Counts {
        lexemes,
        steps,
        kept,
        dropped,
        deepest,
    } = answer.counts;
    format!("{verdict} ; {lexemes} {steps} {kept} {dropped} {deepest}")
}

/// The refusal with its span, and the note's where there is one.
pub fn written_refusal(refusal: Refusal) -> String {
    let plain = format!("refused {} {}", refusal.number, written(refusal.span));
    match refusal.note {
        None => plain,
        Some(note) => format!("{plain} {}", written(note)),
    }
}

/// The two words of a span.
pub fn written(span: Span) -> String {
    let (low, high) = words::of(span);
    format!("{low} {high}")
}

// Which calls.

const DOCS: [u32; 3] = [0, 1, u32::MAX];

/// The chosen texts, each with several memories; some long texts with the most that a call
/// may lend; and as many sampled ones.
pub fn calls(seed: u64, sampled: usize) -> Vec<Tidy> {
    let mut random = Random::new(seed + 2);
    let mut calls = Vec::new();
    for text in spaced::CHOSEN {
        calls.push(ample(&mut random, text));
        calls.extend(little(&mut random, text));
        calls.push(picked(&mut random, text));
    }
    let mut supply = Supply::new(seed);
    let long = texts(&mut supply, LONG_TEXTS, SAMPLED_TEXT + 1, LONGEST_TEXT);
    calls.extend(long.iter().map(|text| most(&mut random, text)));
    let short = texts(&mut supply, sampled, 0, SAMPLED_TEXT);
    calls.extend(short.iter().map(|text| picked(&mut random, text)));
    calls.retain(fits);
    calls
}

/// So many texts with so many bytes.
fn texts(supply: &mut Supply, count: usize, least: usize, most: usize) -> Vec<Vec<u8>> {
    let texts = std::iter::repeat_with(|| supply.any_text());
    let of_size = texts.filter(|text| (least..=most).contains(&text.len()));
    of_size.take(count).collect()
}

fn fits(call: &Tidy) -> bool {
    call.text.len() <= LONGEST_TEXT
        && call.list <= MOST_LISTED
        && call.stack <= MOST_OPEN
        && call.output <= LONGEST_OUTPUT
}

fn doc(random: &mut Random) -> DocId {
    DocId(DOCS[random.below(DOCS.len())])
}

fn most(random: &mut Random, text: &[u8]) -> Tidy {
    Tidy {
        text: text.to_vec(),
        doc: doc(random),
        list: MOST_LISTED,
        stack: MOST_OPEN,
        output: LONGEST_OUTPUT,
    }
}

fn ample(random: &mut Random, text: &[u8]) -> Tidy {
    let needed = needed(random, text);
    Tidy {
        list: needed.list + random.below(3),
        stack: needed.stack + random.below(3),
        output: needed.output + random.below(4),
        ..needed
    }
}

/// Just enough of everything.
fn needed(random: &mut Random, text: &[u8]) -> Tidy {
    let doc = doc(random);
    let whole = within(&trace(text, doc), AMPLE, AMPLE);
    Tidy {
        doc,
        list: whole.counts.lexemes,
        stack: whole.counts.deepest,
        output: respaced(text, &whole.listed).len(),
        text: text.to_vec(),
    }
}

/// Just enough, and an output that is a byte too short, if there is a byte to write.
fn little(random: &mut Random, text: &[u8]) -> Vec<Tidy> {
    let (exact, short) = (needed(random, text), needed(random, text));
    match short.output {
        0 => vec![exact],
        output => vec![
            exact,
            Tidy {
                output: output - 1,
                ..short
            },
        ],
    }
}

/// Something is too small, or nothing.
fn picked(random: &mut Random, text: &[u8]) -> Tidy {
    let needed = needed(random, text);
    let list = random.below(needed.list + 1);
    let stack = random.below(needed.stack + 1);
    let output = random.below(needed.output + 1);
    match random.below(8) {
        0 => Tidy { list, ..needed },
        1 => Tidy { stack, ..needed },
        2 => Tidy {
            list,
            output,
            ..needed
        },
        3..=5 => Tidy { output, ..needed },
        _ => ample(random, text),
    }
}
