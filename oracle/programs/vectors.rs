//! Writes the fixed list that the gate's program `vectors` replays: the calls to one file, the answers to another, line for line.
//! oracle/README.md describes the lines.

mod strings;
mod walk;

use std::collections::HashSet;
use std::fs::File;
use std::io::{BufWriter, Write};

use judge::generate::random::Random;
use judge::generate::{fixed, nested, rfc8259, tallies, utf8, Texts};
use judge::reference::{trace, within, Counts};
use judge::source::{words, DocId, Span};
use judge::strings::hand::handed;
use judge::strings::value::valued;
use judge::strings::{entries, is_quote_open, Entry};
use judge::tally::Tally;
use judge::whitespace::measured;
use strings::lent::MARK;
use strings::tidy::{written, written_lent, written_lexed};
use strings::{hexadecimal, written_value, Line};

const MADE: &str =
    "# Made by oracle/vectors from the published Rust (ruuda/rcl, 9f705cc6dd), its std and document 01.";

fn main() {
    let names: Vec<String> = std::env::args().skip(1).collect();
    let [calls, answers] = &names[..] else {
        panic!("Expected two file names, for the calls and for the answers.");
    };
    let mut lines = vec![(MADE.to_string(), MADE.to_string())];
    lines.extend(utf8_texts().iter().map(|text| utf8_line(text)));
    lines.extend(span_lines());
    lines.extend(lex_lines());
    lines.extend(tally_lines());
    lines.extend(document_lines());
    lines.extend(string_lines());
    lines.extend(walk_lines());
    lines.extend(whitespace_lines());
    let lines = without_repeats(lines);
    write_lines(calls, lines.iter().map(|line| &line.0));
    write_lines(answers, lines.iter().map(|line| &line.1));
}

fn write_lines<'a>(name: &str, lines: impl Iterator<Item = &'a String>) {
    let mut file = BufWriter::new(File::create(name).expect("The file can be written."));
    for line in lines {
        writeln!(file, "{line}").expect("The line can be written.");
    }
}

fn without_repeats(lines: Vec<Line>) -> Vec<Line> {
    let mut seen = HashSet::new();
    let mut lines = lines;
    lines.retain(|line| seen.insert(line.clone()));
    lines
}

// UTF-8.

fn utf8_line(text: &[u8]) -> Line {
    let answer = match std::str::from_utf8(text) {
        Ok(_) => "ok".to_string(),
        Err(error) => error.valid_up_to().to_string(),
    };
    (format!("utf8 {}", hexadecimal(text)), answer)
}

fn utf8_texts() -> Vec<Vec<u8>> {
    let mut texts = utf8::texts();
    texts.extend((0..=0xff).map(|byte| vec![byte]));
    for form in &utf8::FORMS {
        texts.extend(truncated(form));
    }
    for len in BEFORE {
        texts.extend(behind(len));
    }
    texts
}

/// A form cut short: at the end, before ASCII, before a sequence.
fn truncated(form: &[(u8, u8)]) -> Vec<Vec<u8>> {
    let after: [&[u8]; 3] = [b"", b"a", b"\xc3\xa9"];
    let mut texts = Vec::new();
    for len in 1..form.len() {
        for after in after {
            texts.push([b"z", &utf8::greatest(form)[..len], after].concat());
        }
    }
    texts
}

/// Lengths of ASCII around those of the blocks that a fast check might use.
const BEFORE: [usize; 21] = [
    3, 7, 8, 14, 15, 16, 28, 29, 30, 31, 32, 33, 47, 48, 60, 61, 62, 63, 64, 65, 96,
];

/// Good and bad sequences behind so much ASCII.
fn behind(len: usize) -> Vec<Vec<u8>> {
    let sequences: [&[u8]; 8] = [
        b"",
        b"\xc3\xa9a",
        b"\xe2\x82\xac",
        b"\xf0\x9f\x98\x80\xc3\xa9",
        b"\x80",
        b"\xe2\x82",
        b"\xc3\xa9\xed\xa0\x80",
        b"\xf0\x9f\x98aaaaaaaaaaaaaaaaaaaaaaaaaaaaaaaa",
    ];
    let ascii: Vec<u8> = (0..len).map(|at| b'!' + (at % 90) as u8).collect();
    let join = |sequence: &&[u8]| [&ascii[..], sequence].concat();
    sequences.iter().map(join).collect()
}

// Spans.

const LONGEST: u64 = (1 << 48) - 1;

const OFFSETS: [u64; 6] = [0, 1, 0xffff, 0x1_0000, 0x1_0000_0000, LONGEST];

const TOO_LARGE: [u64; 2] = [LONGEST + 1, u64::MAX];

const DOCS: [u32; 3] = [0, 1, u32::MAX];

const REFUSED: &str = "refused 3";

/// A span as document 01 packs it, also where its start is after its end.
fn packed(doc: u32, start: u64, end: u64) -> Span {
    let low = start + (end % (1 << 16) << 48);
    let high = (end >> 16) + ((doc as u64) << 32);
    let span = words::to_span(low, high);
    if start <= end {
        let published = Span::new(DocId(doc), start as usize, end as usize);
        assert_eq!(published, span, "Document 01 packs as the Rust does.");
    }
    span
}

fn is_bad(span: Span) -> bool {
    span.start() > span.end()
}

fn span_lines() -> Vec<Line> {
    let mut lines = new_lines();
    for span in spans() {
        lines.extend(field_lines(span));
        lines.extend(trim_lines(span));
    }
    for (one, other) in pairs() {
        lines.push(until_line(one, other));
        lines.push(union_line(one, other));
    }
    lines
}

fn new_lines() -> Vec<Line> {
    let all = [&OFFSETS[..], &TOO_LARGE].concat();
    let mut lines = grid(1, &all);
    lines.extend(grid(0, &OFFSETS));
    lines.extend(grid(u32::MAX, &OFFSETS));
    lines
}

fn grid(doc: u32, offsets: &[u64]) -> Vec<Line> {
    let ends = |start: u64| offsets.iter().map(move |end| new_line(doc, start, *end));
    offsets.iter().flat_map(|start| ends(*start)).collect()
}

fn new_line(doc: u32, start: u64, end: u64) -> Line {
    let answer = match start <= end && end <= LONGEST {
        true => written(Span::new(DocId(doc), start as usize, end as usize)),
        false => REFUSED.to_string(),
    };
    (format!("span new {doc} {start} {end}"), answer)
}

/// Each pair of offsets once, in both orders, with the documents in turn.
fn spans() -> Vec<Span> {
    let mut spans = Vec::new();
    for (at, start) in OFFSETS.iter().enumerate() {
        for (to, end) in OFFSETS.iter().enumerate() {
            spans.push(packed(DOCS[(at + to) % 3], *start, *end));
        }
    }
    spans
}

fn field_lines(span: Span) -> [Line; 4] {
    let words = written(span);
    let len = match is_bad(span) {
        true => REFUSED.to_string(),
        false => span.len().to_string(),
    };
    [
        (format!("span doc {words}"), span.doc().0.to_string()),
        (format!("span start {words}"), span.start().to_string()),
        (format!("span end {words}"), span.end().to_string()),
        (format!("span len {words}"), len),
    ]
}

fn trim_lines(span: Span) -> Vec<Line> {
    let mut lines = Vec::new();
    for n in trims(span) {
        lines.push(trim_line("trim_start", span, n, Span::trim_start));
        lines.push(trim_line("trim_end", span, n, Span::trim_end));
    }
    lines
}

/// A byte, all of it, and more than there is.
fn trims(span: Span) -> Vec<usize> {
    if is_bad(span) {
        return vec![1];
    }
    let mut trims = vec![1, span.len(), usize::MAX];
    trims.dedup();
    trims
}

fn trim_line(name: &str, span: Span, n: usize, trim: fn(&Span, usize) -> Span) -> Line {
    let answer = match is_bad(span) {
        true => REFUSED.to_string(),
        false => written(trim(&span, n)),
    };
    (format!("span {name} {} {n}", written(span)), answer)
}

/// Good spans of one document beside each other; some of two documents; bad ones.
fn pairs() -> Vec<(Span, Span)> {
    let one = |start: usize, end: usize| packed(1, OFFSETS[start], OFFSETS[end]);
    let good = [
        one(0, 0),
        one(0, 2),
        one(1, 3),
        one(2, 2),
        one(3, 4),
        one(4, 5),
        one(5, 5),
    ];
    let mut pairs: Vec<(Span, Span)> = Vec::new();
    for first in good {
        pairs.extend(good.map(|second| (first, second)));
    }
    let apart = packed(2, 3, 5);
    let bad = packed(1, 5, 3);
    for span in good {
        pairs.extend([(span, apart), (apart, span), (span, bad), (bad, span)]);
    }
    pairs
}

/// The release build's answer, but for two documents and bad spans.
fn until_line(one: Span, other: Span) -> Line {
    let refused = cannot_pair(one, other) || one.start() > other.start();
    let answer = match refused {
        true => REFUSED.to_string(),
        false => written(one.until(other)),
    };
    (format!("span until {} {}", written(one), written(other)), answer)
}

fn union_line(one: Span, other: Span) -> Line {
    let answer = match cannot_pair(one, other) {
        true => REFUSED.to_string(),
        false => written(one.union(other)),
    };
    (format!("span union {} {}", written(one), written(other)), answer)
}

fn cannot_pair(one: Span, other: Span) -> bool {
    is_bad(one) || is_bad(other) || one.doc() != other.doc()
}

// Lexing.

/// So that a call fits a line.
const LONGEST_TEXT: usize = 120;

/// As many places as a call of the list may lend.
const MOST_LISTED: usize = 160;
const MOST_OPEN: usize = 64;

/// The sample of the generators: always the same one. Most texts are short, so
/// that the list stays small.
const SEED: u64 = 2026;
const SHORT_TEXTS: usize = 2050;
const SHORT_TEXT: usize = 40;
const LONG_TEXTS: usize = 600;
const NESTED_TEXTS: usize = 150;
const DEEPEST: usize = 45;

/// One text of the sample in so many is also lexed with little memory.
const LITTLE_ONCE_IN: usize = 2;

fn lex_lines() -> Vec<Line> {
    let mut random = Random::new(SEED);
    let mut lines = Vec::new();
    for text in chosen_texts() {
        lines.extend(ample_line(&mut random, &text));
        lines.extend(little_lines(&mut random, &text, 2));
    }
    for text in sampled_texts() {
        lines.extend(ample_line(&mut random, &text));
        if random.once_in(LITTLE_ONCE_IN) {
            lines.extend(little_lines(&mut random, &text, 1));
        }
    }
    lines
}

/// Document 01's examples, the texts of its readings, each refusal, and RFC 8259's forms.
fn chosen_texts() -> Vec<Vec<u8>> {
    let mut texts = fixed::texts();
    texts.extend(rfc8259::forms());
    texts
}

fn sampled_texts() -> Vec<Vec<u8>> {
    let mut random = Random::new(SEED);
    let short = Texts::without_fixed(SEED, SHORT_TEXT).take(SHORT_TEXTS);
    let long = Texts::without_fixed(SEED + 1, LONGEST_TEXT).take(LONG_TEXTS);
    let mut texts: Vec<Vec<u8>> = short.chain(long).collect();
    let nested = |_| nested::text(&mut random, DEEPEST, LONGEST_TEXT);
    texts.extend((0..NESTED_TEXTS).map(nested));
    texts
}

fn doc(random: &mut Random) -> DocId {
    DocId(DOCS[random.below(DOCS.len())])
}

fn ample_line(random: &mut Random, text: &[u8]) -> Option<Line> {
    lex_line(doc(random), MOST_LISTED, MOST_OPEN, text)
}

/// The same text with so many pairs of sizes around what it needs. Without a
/// lexeme there is nothing to run out of.
fn little_lines(random: &mut Random, text: &[u8], count: usize) -> Vec<Line> {
    let doc = doc(random);
    let needed = within(&trace(text, doc), MOST_LISTED, MOST_OPEN).counts;
    if needed.lexemes == 0 {
        return Vec::new();
    }
    let mut sizes = || little(random, needed);
    let sizes: Vec<_> = (0..count).map(|_| sizes()).collect();
    let line = |(list, stack)| lex_line(doc, list, stack, text);
    sizes.into_iter().filter_map(line).collect()
}

/// Places for list and stack: just enough, or one or both too few.
fn little(random: &mut Random, needed: Counts) -> (usize, usize) {
    let list = random.below(needed.lexemes + 1);
    let stack = random.below(needed.deepest + 1);
    match random.below(4) {
        0 => (needed.lexemes, needed.deepest),
        1 => (list, MOST_OPEN),
        2 => (MOST_LISTED, stack),
        _ => (list, stack),
    }
}

fn lex_line(doc: DocId, list: usize, stack: usize, text: &[u8]) -> Option<Line> {
    if text.len() > LONGEST_TEXT {
        return None;
    }
    let answer = within(&trace(text, doc), list, stack);
    let (lent, bytes) = (written_lent(text, list, stack), hexadecimal(text));
    let call = format!("lex {} {lent} {bytes}", doc.0);
    Some((call, written_lexed(&answer)))
}

// The tally.

/// So many texts are tallied one after the other from nothing on, and so many from near
/// 2^64 - 1 on; so many have a tally by hand.
const TALLIED: usize = 24;
const STOPPING: Tally = Tally {
    accepted: u64::MAX - 5,
    refused: u64::MAX - 5,
    steps: u64::MAX - 40,
};

fn tally_lines() -> Vec<Line> {
    let mut random = Random::new(SEED + 6);
    let mut texts = Texts::without_fixed(SEED + 6, SHORT_TEXT);
    let mut lines = Vec::new();
    for start in [Tally::default(), STOPPING] {
        let mut tally = start;
        for text in texts.by_ref().take(TALLIED) {
            let (line, after) = tally_line(&mut random, tally, &text);
            lines.push(line);
            tally = after;
        }
    }
    for text in texts.take(TALLIED) {
        let steps = trace(&text, DocId(0)).taken.len();
        let tally = tallies::tally(&mut random, steps);
        lines.push(tally_line(&mut random, tally, &text).0);
    }
    lines
}

/// One call, with ample memory or with little, and the tally after it.
fn tally_line(random: &mut Random, before: Tally, text: &[u8]) -> (Line, Tally) {
    let doc = doc(random);
    let trace = trace(text, doc);
    let needed = within(&trace, MOST_LISTED, MOST_OPEN).counts;
    let (list, stack) = match random.once_in(LITTLE_ONCE_IN) {
        true => little(random, needed),
        false => (MOST_LISTED, MOST_OPEN),
    };
    let answer = within(&trace, list, stack);
    let after = before.after(&answer);
    let (lent, bytes) = (written_lent(text, list, stack), hexadecimal(text));
    let line = (
        format!("tally {} {} {lent} {bytes}", written_tally(before), doc.0),
        format!("{} ; {}", written_lexed(&answer), written_tally(after)),
    );
    (line, after)
}

fn written_tally(tally: Tally) -> String {
    let Tally {
        accepted,
        refused,
        steps,
    } = tally;
    format!("{accepted} {refused} {steps}")
}

// Whole documents.

/// What a document is lexed and its strings are read into.
const DOCUMENT_LISTED: usize = 168;
const DOCUMENT_OPEN: usize = 72;
const DOCUMENT_PARTS: usize = 48;
const DOCUMENT_OUTPUT: usize = 72;
const LONGEST_DOCUMENT: usize = 640;

/// RFC 8259's documents and its other examples.
fn document_lines() -> Vec<Line> {
    let texts = rfc8259::texts();
    let docs = DOCS.iter().cycle();
    let line = |(text, doc): (&Vec<u8>, &u32)| document_line(DocId(*doc), text);
    texts.iter().zip(docs).map(line).collect()
}

fn document_line(doc: DocId, text: &[u8]) -> Line {
    assert!(text.len() <= LONGEST_DOCUMENT, "The program has room for it.");
    let answer = within(&trace(text, doc), DOCUMENT_LISTED, DOCUMENT_OPEN);
    let list = entries(&answer.listed);
    let openers = (0..list.len()).filter(|place| is_quote_open(list[*place].kind));
    let value = |place| format!(" ; {place} {}", string_of_document(text, &list, place));
    let values: String = openers.map(value).collect();
    (
        format!("document {} {}", doc.0, hexadecimal(text)),
        format!("{}{values}", written_lexed(&answer)),
    )
}

/// The value, and the bytes that are handed back.
fn string_of_document(text: &[u8], list: &[Entry], place: usize) -> String {
    let mut output = [MARK; DOCUMENT_OUTPUT];
    let value = valued(text, list, place, DOCUMENT_PARTS, &mut output, 0).value;
    let written = written_value(&value);
    match value {
        Ok(part) => {
            let bytes = handed(text, &output, part).expect("A value can be handed back.");
            format!("{written} {}", hexadecimal(bytes))
        }
        Err(_) => written,
    }
}

// Strings.

/// So many calls of the generator, beside the chosen ones.
const SAMPLED_STRINGS: usize = 300;

fn string_lines() -> Vec<Line> {
    let calls = strings::calls(SEED, SAMPLED_STRINGS);
    calls.iter().map(strings::Call::line).collect()
}

// The walker.

/// So many texts of the generators, beside the chosen ones.
const SAMPLED_WALKS: usize = 60;

fn walk_lines() -> Vec<Line> {
    let calls = walk::calls(SEED, SAMPLED_WALKS);
    calls.iter().map(walk::Walk::line).collect()
}

// Runs of whitespace, measured: document 02, Point 2.

const WHITESPACE: &str = "# Document 02, Point 2: a run of whitespace, measured.";

/// What begins or ends a run: the five bytes of whitespace, and bytes that are none.
const AROUND: [u8; 9] = [b' ', b'\t', b'\n', 0x0b, 0x0c, b'\r', b'x', 0, 0xa0];

fn whitespace_lines() -> Vec<Line> {
    let mut lines = vec![(WHITESPACE.to_string(), WHITESPACE.to_string())];
    for text in whitespace_texts() {
        lines.push(whitespace_line(&text, 0));
    }
    let text = b"x \n\t \r\x0c\n  y ";
    lines.extend((0..=text.len() + 1).map(|at| whitespace_line(text, at)));
    lines.push(whitespace_line(text, usize::MAX));
    lines
}

/// The code measures twice: as a step does, and as it does behind a lexeme.
fn whitespace_line(text: &[u8], at: usize) -> Line {
    let run = measured(text, at);
    let answer = format!("{} {} {}", run.length, run.lines, run.looked);
    (
        format!("whitespace {at} {}", hexadecimal(text)),
        format!("{answer} {answer}"),
    )
}

/// All short texts of these bytes, and long runs up to each of them, since spaces
/// are looked at eight to a turn.
fn whitespace_texts() -> Vec<Vec<u8>> {
    let mut texts = vec![vec![]];
    for a in AROUND {
        texts.push(vec![a]);
        for b in AROUND {
            texts.push(vec![a, b]);
            texts.extend(AROUND.map(|c| vec![a, b, c]));
        }
    }
    for count in 3..=26 {
        let spaces = vec![b' '; count];
        texts.push(spaces.clone());
        for byte in AROUND {
            texts.push([&spaces[..], &[byte]].concat());
            texts.push([&b"\n"[..], &spaces, &[byte], b" \n"].concat());
        }
    }
    texts
}
