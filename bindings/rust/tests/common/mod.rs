//! Memory for the tests, and their texts.

// Each test file uses some of them.
#![allow(dead_code)]

use rcl::{lex, value, Lexed, Lexeme, List, Refusal, Span, Stack, Value};

/// The id of every document here.
pub const DOC: u32 = 7;

/// Places enough for every text here.
pub const AMPLE: usize = 256;

/// A scan protocol with every sort of string.
pub const PROTOCOL: &[u8] = br#"// Slide 7, two fields.
let step = 0x40;

[
  {to="A1", x = 12.5, y = -3e2, note = f"row {row}, {f"column {col-1}"}"},
  {to="B1", wait = 1_500, note = "caf\u00e9 \"2\" \u{1F52C}"},
  {note = """
    Focus first,
      then scan.
    """},
]
"#;

pub fn span(start: usize, end: usize) -> Span {
    Span {
        start,
        end,
        doc: DOC,
    }
}

/// A refusal without a note.
pub fn refused(number: u8, start: usize, end: usize) -> Refusal {
    Refusal {
        number,
        span: span(start, end),
        note: None,
    }
}

/// Arrays of one list or stack.
pub struct Arrays {
    pub kinds: Vec<u8>,
    pub words: Vec<u64>,
}

impl Arrays {
    pub fn new(places: usize) -> Arrays {
        Arrays {
            kinds: vec![0xaa; places],
            words: vec![0xbbbb; 2 * places],
        }
    }

    pub fn list(&mut self) -> List<'_> {
        List::new(&mut self.kinds, &mut self.words)
    }

    pub fn stack(&mut self) -> Stack<'_> {
        Stack::new(&mut self.kinds, &mut self.words)
    }
}

/// Lexes with lists of so many places.
pub fn lex_within(text: &[u8], places: usize, stack: usize) -> (Lexed, Vec<Lexeme>) {
    let (mut arrays, mut openers) = (Arrays::new(places), Arrays::new(stack));
    let mut list = arrays.list();
    let lexed = lex(DOC, text, &mut list, &mut openers.stack());
    (lexed, list.entries().iter().collect())
}

pub fn lexed(text: &[u8]) -> (Lexed, Vec<Lexeme>) {
    lex_within(text, AMPLE, AMPLE)
}

/// The kind codes and offsets of an accepted text.
pub fn listed(text: &[u8]) -> Vec<(u8, usize, usize)> {
    let (lexed, lexemes) = lexed(text);
    assert_eq!(lexed.answer, Ok(()), "{text:?}");
    let listed = lexemes
        .iter()
        .map(|lexeme| (lexeme.kind.code(), lexeme.span.start, lexeme.span.end));
    listed.collect()
}

/// A value, and whether the output holds it.
#[derive(Debug, Eq, PartialEq)]
pub enum Read {
    Text(Vec<u8>),
    Output(Vec<u8>),
}

/// The value of the string at a place of an accepted text's list.
pub fn value_at(text: &[u8], place: usize) -> Result<Read, Refusal> {
    let (mut arrays, mut openers) = (Arrays::new(AMPLE), Arrays::new(AMPLE));
    let mut list = arrays.list();
    let lexed = lex(DOC, text, &mut list, &mut openers.stack());
    assert_eq!(lexed.answer, Ok(()), "{text:?}");
    let (mut parts, mut output) = (Arrays::new(AMPLE), [0; 1024]);
    let found = value(
        text,
        list.entries(),
        place,
        &mut parts.list(),
        &mut output,
        0,
    )?;
    Ok(match found {
        Value::Text(bytes) => Read::Text(bytes.to_vec()),
        Value::Output(bytes) => Read::Output(bytes.to_vec()),
    })
}

/// Bytes that make up every sort of short text: names, numbers, strings, holes, escapes,
/// brackets, comments, whitespace and what is refused.
const ALPHABET: &[u8] = b"af0\"{}(/\\ \n\xff";

/// All texts of at most 4 bytes over the alphabet.
pub fn short_texts() -> Vec<Vec<u8>> {
    let mut texts = vec![Vec::new()];
    let mut from = 0;
    for _ in 0..4 {
        let longer: Vec<_> = texts[from..]
            .iter()
            .flat_map(|text| followed(text))
            .collect();
        from = texts.len();
        texts.extend(longer);
    }
    texts
}

/// A text with each byte of the alphabet behind it.
fn followed(text: &[u8]) -> impl Iterator<Item = Vec<u8>> + '_ {
    ALPHABET.iter().map(move |byte| [text, &[*byte]].concat())
}
