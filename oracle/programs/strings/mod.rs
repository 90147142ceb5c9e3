//! Calls on strings with their answers, for the fixed list and for the definitions.

// Each program uses some of this.
#![allow(dead_code)]

pub mod hand;
pub mod lent;
pub mod theorems;
pub mod tidy;

use judge::generate::cases::Cases;
use judge::generate::escapes::{by_hand, ByHand};
use judge::generate::random::Random;
use judge::generate::{chosen, strings};
use judge::strings::case::Case;
use judge::strings::escapes::{scalar, unescape};
use judge::strings::indent::indent;
use judge::strings::parts::{parted, Parted};
use judge::strings::published;
use judge::strings::value::{Held, Valued};
use judge::strings::{counted, is_escape, is_quote_open, Entry, Result, LONGEST};

use hand::Hand;
use lent::{ends, turn, Lengths, MARK};
use tidy::Tidy;

/// A call, and its answer.
pub type Line = (String, String);

/// A call has less than so many bytes, and so has its answer.
const LINE: usize = 420;

const LONGEST_TEXT: usize = 120;
const MOST_LISTED: usize = 40;
const LONGEST_OUTPUT: usize = 64;

pub enum Call {
    Identifier(Vec<u8>),
    Keyword(Vec<u8>),
    Escape(Escape),
    Scalar(Escape),
    /// The case's text, list and count.
    Indent(Case),
    Parts(Case),
    Value(Case),
    Tidy(Tidy),
    Hand(Hand),
}

/// An escape's text, kind and span; the output's length and the position.
pub struct Escape {
    pub text: Vec<u8>,
    pub lexeme: Entry,
    pub output: usize,
    pub position: usize,
}

impl Escape {
    pub fn scalar(&self) -> Result<u64> {
        let Entry { kind, at } = self.lexeme;
        scalar(&self.text, at, kind).map(|scalar| scalar as u64)
    }

    /// The count, and the output after the call.
    pub fn unescaped(&self) -> (Result<u64>, Vec<u8>) {
        let Entry { kind, at } = self.lexeme;
        let mut output = vec![MARK; self.output];
        let count = unescape(&self.text, at, kind, &mut output, self.position);
        (count.map(|count| count as u64), output)
    }
}

impl Call {
    /// How much there is to look at, if the answer is wrong.
    pub fn size(&self) -> usize {
        match self {
            Call::Identifier(bytes) | Call::Keyword(bytes) => bytes.len(),
            Call::Escape(escape) | Call::Scalar(escape) => escape.text.len() + escape.output,
            Call::Indent(case) | Call::Parts(case) => case.text.len() + case.list.len(),
            Call::Value(case) => case.text.len() + case.list.len() + case.output,
            Call::Tidy(tidy) => tidy.text.len() + tidy.output,
            Call::Hand(hand) => hand.text.len() + hand.output.len(),
        }
    }

    /// The number with which the call is refused; 0 if it is not.
    pub fn number(&self) -> u8 {
        match self {
            Call::Identifier(_) | Call::Keyword(_) => 0,
            Call::Escape(escape) => number_of(&escape.unescaped().0),
            Call::Scalar(escape) => number_of(&escape.scalar()),
            Call::Indent(case) => number_of(&indented(case)),
            Call::Parts(case) => number_of(&case.parted().closer),
            Call::Value(case) => number_of(&value_of(case).0.value),
            Call::Tidy(tidy) => tidy.number(),
            Call::Hand(hand) => number_of(&hand.handed()),
        }
    }

    pub fn line(&self) -> Line {
        match self {
            Call::Identifier(bytes) => {
                name_line("identifier", bytes, published::is_identifier(bytes))
            }
            Call::Keyword(bytes) => name_line("keyword", bytes, published::is_keyword(bytes)),
            Call::Escape(escape) => escape_line(escape),
            Call::Scalar(escape) => scalar_line(escape),
            Call::Indent(case) => indent_line(case),
            Call::Parts(case) => parts_line(case),
            Call::Value(case) => value_line(case),
            Call::Tidy(tidy) => tidy.line(),
            Call::Hand(hand) => hand.line(),
        }
    }
}

fn number_of<T>(answer: &Result<T>) -> u8 {
    answer.as_ref().map_or_else(|refused| refused.number, |_| 0)
}

pub fn indented(case: &Case) -> Result<u64> {
    let spaces = indent(&case.text, counted(&case.list, case.count));
    spaces.map(|spaces| spaces as u64)
}

/// The answer, and the output after the call.
pub fn value_of(case: &Case) -> (Valued, Vec<u8>) {
    let mut output = vec![MARK; case.output];
    let valued = case.valued(&mut output);
    (valued, output)
}

// Lines.

fn name_line(kind: &str, bytes: &[u8], answer: bool) -> Line {
    (
        format!("{kind} {}", hexadecimal(bytes)),
        (answer as u8).to_string(),
    )
}

fn escape_line(escape: &Escape) -> Line {
    let Entry { kind, at } = escape.lexeme;
    let (output, position) = (escape.output, escape.position);
    let bytes = hexadecimal(&escape.text);
    let (count, after) = escape.unescaped();
    (
        format!(
            "escape {} {} {kind} {output} {position} {bytes}",
            at.low, at.high
        ),
        format!("{} ; {}", given(&count), hexadecimal(&after)),
    )
}

fn scalar_line(escape: &Escape) -> Line {
    let Entry { kind, at } = escape.lexeme;
    let bytes = hexadecimal(&escape.text);
    (
        format!("scalar {} {} {kind} {bytes}", at.low, at.high),
        given(&escape.scalar()),
    )
}

fn indent_line(case: &Case) -> Line {
    let (count, bytes) = (case.count, hexadecimal(&case.text));
    let (lengths, list) = (list_lengths(case).written(), written_list(&case.list));
    (
        format!("indent {lengths} {count} {bytes}{list}"),
        given(&indented(case)),
    )
}

fn parts_line(case: &Case) -> Line {
    let Parted { closer, parts } = case.parted();
    let closer = given(&closer.map(|place| place as u64));
    (
        format!("parts {}{}", written_given(case), written_list(&case.list)),
        format!("{closer} ; {}", written_parts(&parts)),
    )
}

fn value_line(case: &Case) -> Line {
    let (output, position) = (case.output, case.position);
    let (bytes, list) = (hexadecimal(&case.text), written_list(&case.list));
    let (Valued { value, parts }, after) = value_of(case);
    let (value, parts) = (written_value(&value), written_parts(&parts));
    (
        format!(
            "value {} {output} {position} {bytes}{list}",
            written_given(case)
        ),
        format!("{value} ; {parts} ; {}", hexadecimal(&after)),
    )
}

/// Those of the list that the call is given. Its places are as many as it has entries.
fn list_lengths(case: &Case) -> Lengths {
    Lengths::with(case.list.len(), turn(&case.text) + case.list.len())
}

/// The list's lengths, the count and the opener's place, the parts list's lengths.
fn written_given(case: &Case) -> String {
    let parts = Lengths::with(case.room, turn(&case.text) + case.room + 1);
    let (count, place) = (case.count, case.place);
    let (list, parts) = (list_lengths(case).written(), parts.written());
    format!("{list} {count} {place} {parts}")
}

/// How many parts, the parts, and how far their arrays are written.
fn written_parts(parts: &[Entry]) -> String {
    let (count, list) = (parts.len(), written_list(parts));
    format!("{count} ;{list} ; {}", ends(count))
}

pub fn written_value(value: &Result<Held>) -> String {
    match value {
        Ok(Held::Text { start, end }) => format!("text {start} {end}"),
        Ok(Held::Output { start, end }) => format!("output {start} {end}"),
        Err(refused) => given(&Err(*refused)),
    }
}

fn given(answer: &Result<u64>) -> String {
    match answer {
        Ok(number) => format!("given {number}"),
        Err(refused) => format!(
            "refused {} {} {}",
            refused.number, refused.at.low, refused.at.high
        ),
    }
}

fn written_list(list: &[Entry]) -> String {
    let entry = |e: &Entry| format!(" {} {} {}", e.kind, e.at.low, e.at.high);
    list.iter().map(entry).collect()
}

pub fn hexadecimal(text: &[u8]) -> String {
    match text {
        [] => "-".to_string(),
        _ => text.iter().map(|byte| format!("{byte:02x}")).collect(),
    }
}

// Which calls.

/// The chosen calls, and as many sampled ones: names, escapes and indents first, whose
/// answers are the Rust's where the lexer made the spans.
pub fn calls(seed: u64, sampled: usize) -> Vec<Call> {
    let mut calls = names(seed);
    calls.extend(escapes(seed));
    calls.extend(indents(seed));
    for case in chosen::cases() {
        calls.push(Call::Parts(case.clone()));
        calls.push(Call::Value(case));
    }
    calls.retain(fits_a_line);
    let mut cases = Cases::new(seed, 40);
    let mut missing = sampled;
    while missing > 0 {
        let case = cases.next_case();
        let call = match missing % 3 {
            0 => Call::Parts(case),
            _ => Call::Value(case),
        };
        if fits_a_line(&call) {
            calls.push(call);
            missing -= 1;
        }
    }
    calls.extend(tidy::calls(seed, sampled / 3).into_iter().map(Call::Tidy));
    calls.extend(hand::calls(seed, sampled / 10).into_iter().map(Call::Hand));
    calls
}

fn fits_a_line(call: &Call) -> bool {
    let (asked, answer) = call.line();
    let lent = match call {
        Call::Indent(case) | Call::Parts(case) | Call::Value(case) => {
            case.text.len() <= LONGEST_TEXT
                && case.list.len() <= MOST_LISTED
                && case.room <= MOST_LISTED
                && case.output <= LONGEST_OUTPUT
        }
        _ => true,
    };
    lent && asked.len() < LINE && answer.len() < LINE
}

/// Keywords and near them, the ends of the ranges of letters and digits, not UTF-8.
const NAMES: &[&[u8]] = &[
    b"",
    b"a",
    b"_",
    b"-",
    b"Z",
    b"z",
    b"A",
    b"@",
    b"[",
    b"`",
    b"{",
    b"0",
    b"9",
    b"a9",
    b"9a",
    b"a-",
    b"-a",
    b"a-b",
    b"a--b",
    b"a--",
    b"_-",
    b"_-_",
    b"__",
    b"a b",
    b"a\n",
    b" a",
    b"a.b",
    b"a/",
    b"a:",
    b"x1_Y-2",
    b"\xc3\xa9",
    b"a\xc3\xa9",
    b"a\xff",
    b"\x80",
    b"a\x00",
    b"\x7f",
    b"b-1",
    b"and",
    b"assert",
    b"else",
    b"false",
    b"for",
    b"if",
    b"import",
    b"in",
    b"let",
    b"not",
    b"null",
    b"or",
    b"trace",
    b"true",
    b"And",
    b"an",
    b"ands",
    b"in-",
    b"in_",
    b"_in",
    b"inn",
    b"import1",
    b"tru",
    b"TRUE",
    b"truE",
    b"f",
    b"nul",
    b"iff",
];

fn names(seed: u64) -> Vec<Call> {
    let mut random = Random::new(seed);
    let mut calls = Vec::new();
    for name in NAMES {
        calls.push(Call::Identifier(name.to_vec()));
        calls.push(Call::Keyword(name.to_vec()));
    }
    for _ in 0..20 {
        let len = random.between(1, 24);
        let byte = |random: &mut Random| b"abzAZ09_-"[random.below(9)];
        calls.push(Call::Identifier(
            (0..len).map(|_| byte(&mut random)).collect(),
        ));
    }
    calls
}

/// Escapes as they stand in strings.
const ESCAPES: &[&[u8]] = &[
    b"\\\"",
    b"\\\\",
    b"\\/",
    b"\\b",
    b"\\f",
    b"\\n",
    b"\\r",
    b"\\t",
    b"\\{",
    b"\\}",
    b"\\N",
    b"\\A",
    b"\\Z",
    b"\\@",
    b"\\[",
    b"\\x",
    b"\\ ",
    b"\\0",
    b"\\'",
    b"\\a",
    b"\\z",
    b"\\\x00",
    b"\\\x7f",
    b"\\u0000",
    b"\\u0041",
    b"\\u007F",
    b"\\u0080",
    b"\\u07ff",
    b"\\u0800",
    b"\\uD7FF",
    b"\\ud800",
    b"\\uDBFF",
    b"\\udfff",
    b"\\uE000",
    b"\\uFFFF",
    b"\\uaBcD",
    b"\\u{}",
    b"\\u{0}",
    b"\\u{7f}",
    b"\\u{80}",
    b"\\u{7FF}",
    b"\\u{800}",
    b"\\u{d7ff}",
    b"\\u{D800}",
    b"\\u{dfff}",
    b"\\u{E000}",
    b"\\u{ffff}",
    b"\\u{10000}",
    b"\\u{10FFFF}",
    b"\\u{110000}",
    b"\\u{FFFFFF}",
    b"\\u{000041}",
    b"\\u{0000041}",
    b"\\u{00000041}",
    b"\\u{1F600}",
];

fn escapes(seed: u64) -> Vec<Call> {
    let mut random = Random::new(!seed);
    let mut calls = Vec::new();
    for escape in ESCAPES {
        calls.extend(lexed_escape(&mut random, escape));
    }
    for _ in 0..60 {
        let ByHand { text, at, kind } = by_hand(&mut random);
        calls.extend(both(&mut random, text, Entry { kind, at }));
    }
    calls
}

/// In a string, at a random offset. The Rust must say the same.
fn lexed_escape(random: &mut Random, escape: &[u8]) -> Vec<Call> {
    let before = vec![b'a'; random.below(6)];
    let text = [b"\"", &before[..], escape, b"\""].concat();
    let list = Case::lexed(&text, random.below(3) as u32, 0).list;
    let lexeme = list.iter().find(|e| is_escape(e.kind));
    let lexeme = *lexeme.expect("The lexer finds the escape.");
    let published = published::unescaped(std::str::from_utf8(&text).expect("UTF-8."), &lexeme);
    let ours = scalar(&text, lexeme.at, lexeme.kind).map(String::from);
    assert_eq!(
        published, ours,
        "Document 01 and the Rust differ on {text:?}."
    );
    both(random, text, lexeme)
}

fn both(random: &mut Random, text: Vec<u8>, lexeme: Entry) -> Vec<Call> {
    let (output, position) = match random.below(8) {
        0 => (random.below(4), random.below(5)),
        1 => (4, usize::MAX - random.below(5)),
        2 => (4, LONGEST as usize),
        3 => (5, random.between(2, 5)),
        _ => (8, random.below(5)),
    };
    let escape = |text| Escape {
        text,
        lexeme,
        output,
        position,
    };
    let scalar = Escape {
        output: 0,
        position: 0,
        ..escape(text.clone())
    };
    vec![Call::Scalar(scalar), Call::Escape(escape(text))]
}

/// The parts of chosen and of generated strings, as the Rust counts them; and parts by
/// hand.
fn indents(seed: u64) -> Vec<Call> {
    let mut random = Random::new(seed + 1);
    let mut texts: Vec<Vec<u8>> = chosen::texts().into_iter().map(<[u8]>::to_vec).collect();
    texts.extend((0..60).map(|_| strings::text(&mut random, 50)));
    let mut calls: Vec<Call> = texts.iter().flat_map(|text| lexed_indents(text)).collect();
    let by_hand = chosen::cases()
        .into_iter()
        .filter(|case| case.list.len() < 8);
    calls.extend(by_hand.skip(100).step_by(2).map(without_quotes));
    calls
}

fn lexed_indents(text: &[u8]) -> Vec<Call> {
    let whole = Case::lexed(text, 0, 0);
    let text = std::str::from_utf8(text).expect("The texts are UTF-8.");
    let mut calls = Vec::new();
    for place in 0..whole.list.len() {
        let parted = parted(&whole.list, place, usize::MAX);
        if !is_quote_open(whole.list[place].kind) || parted.closer.is_err() {
            continue;
        }
        let case = Case::ample(text.as_bytes(), parted.parts, 0);
        let published = published::indent(text, &case.list) as u64;
        assert_eq!(
            indented(&case),
            Ok(published),
            "Document 01 and the Rust differ on {text:?}."
        );
        if published > 0 || place == 0 {
            calls.push(Call::Indent(case));
        }
    }
    calls
}

/// The lexemes behind the opener, taken for parts.
fn without_quotes(case: Case) -> Call {
    let mut case = case;
    if !case.list.is_empty() {
        case.list.remove(0);
    }
    if case.list.last().is_some_and(|e| e.kind == 9) && case.text.len() % 2 == 0 {
        case.list.pop();
    }
    Call::Indent(case)
}
