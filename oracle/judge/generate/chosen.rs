//! Calls on strings that are always compared: document 01's marked pairs, what its
//! readings name, each refusal, each way in which a string is broken.

use crate::strings::case::Case;
use crate::strings::value::Held;
use crate::strings::{is_quote_open, Entry, Words, LONGEST};

/// Texts of the marked pairs j and k, and the value's number or bytes.
pub const MARKED: [(&[u8], Result<&[u8], u8>); 3] = [
    (b"\"\\u{}\"", Err(43)),
    (b"\"\\u{0000041}\"", Err(44)),
    (b"\"\\u{000041}\"", Ok(b"A")),
];

/// The ids of the documents, in turn.
const DOCS: [u32; 4] = [0, 1, 0, 7];

pub fn cases() -> Vec<Case> {
    let mut cases = Vec::new();
    for (number, text) in texts().into_iter().enumerate() {
        cases.extend(of_text(text, DOCS[number % DOCS.len()]));
    }
    cases.extend(positions());
    cases.extend(by_hand());
    cases
}

pub fn texts() -> Vec<&'static [u8]> {
    let marked = MARKED.iter().map(|(text, _)| *text);
    marked.chain(TEXTS.iter().copied()).collect()
}

/// Each string of the text, with ample memory and with too little.
fn of_text(text: &[u8], doc: u32) -> Vec<Case> {
    let list = Case::lexed(text, doc, 0).list;
    let openers = list
        .iter()
        .enumerate()
        .filter(|(_, e)| is_quote_open(e.kind));
    let at_place = |(place, _)| with_memory(Case::ample(text, list.clone(), place));
    openers.flat_map(at_place).collect()
}

fn with_memory(ample: Case) -> Vec<Case> {
    let mut output = vec![0; ample.output];
    let valued = ample.valued(&mut output);
    let parts = valued.parts.len();
    let Ok(Held::Output { end, .. }) = valued.value else {
        return vec![ample];
    };
    let exact = Case {
        room: parts,
        output: end as usize + 1,
        position: 1,
        ..ample.clone()
    };
    let mut cases = vec![ample, exact.clone()];
    if parts > 0 {
        cases.push(Case {
            room: parts - 1,
            ..exact.clone()
        });
    }
    if end > 0 {
        cases.push(Case {
            output: end as usize,
            ..exact
        });
    }
    cases
}

const TEXTS: &[&[u8]] = &[
    // Unbroken, empty, holes alone.
    b"\"a\"",
    b"\"\"",
    b"\"\"\"\"\"\"",
    b"\"\"\"abc\"\"\"",
    b"f\"abc\"",
    b"f\"{a}\"",
    b"f\"{}{}\"",
    b"f\"\"\"{x}\"\"\"",
    b"x = \"tidy\";",
    b"\"h\xc3\xa9 \xf0\x9f\x98\x80\"",
    // Broken by an escape, a hole, a line.
    b"\"a\\n\"",
    b"\"\\n\"",
    b"\"\\n\\t\"",
    b"f\"a{b}\"",
    b"f\"{b}a\"",
    b"f\"a{b}c{d}e\"",
    b"\"a\nb\"",
    b"\"\n  a\"",
    b"\"\n  a\n b\"",
    b"\"\\\"\\\\\\/\\b\\f\\n\\r\\t\\{\\}\"",
    b"\"\\u0041\\u00e9\\u20ac\\uffff\"",
    b"\"\\u{41}\\u{e9}\\u{20AC}\\u{1f600}\"",
    b"\"\\u{0}\\u{7f}\\u{80}\\u{7ff}\\u{800}\"",
    b"\"\\u{d7ff}\\u{e000}\\u{ffff}\\u{10000}\\u{10ffff}\"",
    // Indents.
    b"\"\"\"\n\"\"\"",
    b"\"\"\"\n  \"\"\"",
    b"\"\"\"\n  a\"\"\"",
    b"\"\"\"\na\"\"\"",
    b"\"\"\"\n  a\n  b\n\"\"\"",
    b"\"\"\"\n  a\n  b\n  \"\"\"",
    b"\"\"\"\n  a\n\n  b\n  \"\"\"",
    b"\"\"\"\n  a\n \n  b\n  \"\"\"",
    b"\"\"\"\n  a\n     \n  b\"\"\"",
    b"\"\"\"\n\n\n  a\"\"\"",
    b"\"\"\"\n    a\n  b\n      c\"\"\"",
    b"\"\"\"a\n  b\n    c\"\"\"",
    b"\"\"\"\n\ta\n  b\"\"\"",
    b"\"\"\"\n  a\r\n  b\r\n\"\"\"",
    b"\"\"\"\n  \\n  a\"\"\"",
    b"\"\"\"\n  a\n\\tb\"\"\"",
    b"\"\"\"\n    \\u{20}a\n  b\"\"\"",
    b"f\"\"\"\n  {a}\n  b\"\"\"",
    b"f\"\"\"\n    a{x}\n  {y}\n\"\"\"",
    b"f\"\"\"\n  a\n{x}  b\"\"\"",
    b"f\"\"\"\n  a\n    {x}\"\"\"",
    b"f\"\"\"{x}\n  a\"\"\"",
    b"f\"\"\"\n  a {\n1}\n  b\"\"\"",
    b"\"\"\"\n  \"a\"\n  b\"\"\"",
    // Strings in holes.
    b"f\"a{\"b\"}c\"",
    b"f\"{f\"{c}\"}\"",
    b"f\"a{f\"b{f\"c{d}\"}\"}\"",
    b"f\"\"\"{\"\"\"x\"\"\"}\"\"\"",
    b"f\"{{a: \"b\"}}\"",
    b"f\"\"\"\n  {f\"\"\"\n    b\"\"\"}\"\"\"",
    // Escapes without a value, and which comes first.
    b"\"\\x\"",
    b"\"\\ \"",
    b"\"\\N\"",
    b"\"\\U0041\"",
    b"\"\\uD800\"",
    b"\"\\uDFFF\"",
    b"\"\\u{110000}\"",
    b"\"\\u{FFFFFF}\"",
    b"\"\\u{d834}\"",
    b"\"\\N\\u{}\"",
    b"\"\\u{}\\N\"",
    b"\"a\\u{00000000}\"",
    b"f\"{a}\\x{b}\"",
    b"f\"{\"\\x\"}\"",
    b"\"\"\"\n  \\q\"\"\"",
    // Not closed, so that the list ends first.
    b"\"a",
    b"f\"a{",
    b"f\"{a}",
    b"f\"{\"\"",
];

/// Positions at and past the end of the output, for a value of no byte, of a part of
/// the text, and of written bytes.
fn positions() -> Vec<Case> {
    let texts: [&[u8]; 6] = [
        b"\"\"",
        b"f\"{a}\"",
        b"\"a\"",
        b"\"a\\n\"",
        b"f\"{a}b\"",
        b"\"\"\"\n a\"\"\"",
    ];
    let pairs = [
        (0, 0),
        (0, 1),
        (3, 3),
        (3, 4),
        (3, 2),
        (3, 1),
        (4, LONGEST as usize),
        (4, usize::MAX),
    ];
    let with = |text: &'static [u8]| {
        pairs.map(|(output, position)| Case {
            output,
            position,
            ..Case::lexed(text, 1, 0)
        })
    };
    texts.into_iter().flat_map(with).collect()
}

/// A text, a place, and kinds with their starts and ends.
type ByHand = (&'static [u8], usize, &'static [(u8, u64, u64)]);

fn by_hand() -> Vec<Case> {
    let mut cases: Vec<Case> = BY_HAND
        .iter()
        .map(|(text, place, list)| case(text, *place, list))
        .collect();
    cases.extend(counts());
    cases.extend(documents());
    cases.extend(full_lists());
    cases
}

fn case(text: &[u8], place: usize, list: &[(u8, u64, u64)]) -> Case {
    let entry = |(kind, start, end): &(u8, u64, u64)| Entry {
        kind: *kind,
        at: Words::new(0, *start, *end),
    };
    let case = Case::ample(text, list.iter().map(entry).collect(), place);
    Case { output: 16, ..case }
}

#[rustfmt::skip]
const BY_HAND: &[ByHand] = &[
    // No string: nothing there, no opener, no end.
    (b"", 0, &[]),
    (b"\"a\"", 3, &[(5, 0, 1), (10, 1, 2), (9, 2, 3)]),
    (b"\"a\"", 4, &[(5, 0, 1), (10, 1, 2), (9, 2, 3)]),
    (b"\"a\"", usize::MAX, &[(5, 0, 1), (10, 1, 2), (9, 2, 3)]),
    (b"\"a\"", 1, &[(5, 0, 1), (10, 1, 2), (9, 2, 3)]),
    (b"\"a\"", 2, &[(5, 0, 1), (10, 1, 2), (9, 2, 3)]),
    (b"\"a\"", 0, &[(4, 0, 1), (10, 1, 2), (9, 2, 3)]),
    (b"\"a\"", 0, &[(14, 0, 1), (10, 1, 2), (15, 2, 3)]),
    (b"\"a\"", 0, &[(5, 0, 1), (10, 1, 2)]),
    (b"\"a\"", 0, &[(5, 0, 1)]),
    (b"f\"{}\"", 0, &[(7, 0, 2), (14, 2, 3), (9, 4, 5)]),
    // Kinds that have no business at depth 1.
    (b"\"a\"", 0, &[(5, 0, 1), (4, 1, 2), (9, 2, 3)]),
    (b"\"a\"", 0, &[(5, 0, 1), (5, 1, 2), (9, 2, 3)]),
    (b"\"a\"", 0, &[(7, 0, 1), (15, 1, 2), (9, 2, 3)]),
    (b"\"a\"", 0, &[(7, 0, 1), (0, 1, 2), (9, 2, 3)]),
    (b"\"a\"", 0, &[(7, 0, 1), (60, 1, 2), (9, 2, 3)]),
    (b"\"a\"", 0, &[(7, 0, 1), (255, 1, 2), (9, 2, 3)]),
    (b"\"ab\"", 0, &[(5, 0, 1), (10, 1, 2), (33, 2, 3), (9, 3, 4)]),
    // Depth alone counts.
    (b"0123456789", 0, &[(7, 0, 1), (14, 1, 2), (9, 2, 3), (9, 3, 4)]),
    (b"0123456789", 0, &[(5, 0, 1), (14, 1, 2), (15, 2, 3), (9, 3, 4)]),
    (b"0123456789", 0, &[(7, 0, 1), (14, 1, 2), (5, 2, 3), (15, 3, 4), (9, 4, 5), (9, 5, 6)]),
    (b"0123456789", 0, &[(7, 0, 1), (14, 1, 2), (14, 2, 3), (9, 3, 4), (15, 4, 5), (10, 5, 7), (9, 7, 8)]),
    (b"0123456789", 0, &[(7, 0, 1), (14, 1, 2), (60, 2, 3), (255, 3, 4), (10, 4, 5), (15, 5, 6), (9, 6, 7)]),
    // A hole's span is the union of its ends, whichever stands first.
    (b"0123456789", 0, &[(7, 0, 1), (14, 5, 6), (15, 2, 3), (9, 6, 7)]),
    (b"0123456789", 0, &[(7, 0, 1), (14, 2, 8), (15, 4, 5), (9, 8, 9)]),
    (b"0123456789", 0, &[(7, 0, 1), (14, 3, 3), (15, 3, 3), (9, 3, 4)]),
    // Refusal 3: the opener, a part, a wrong kind, within a hole, both its ends, the closer.
    (b"0123456789", 0, &[(5, 1, 0), (10, 1, 2), (9, 2, 3)]),
    (b"0123456789", 0, &[(4, 1, 0), (10, 1, 2), (9, 2, 3)]),
    (b"0123456789", 0, &[(5, 0, 1), (10, 2, 1), (9, 2, 3)]),
    (b"0123456789", 0, &[(5, 0, 1), (12, 2, 1), (9, 2, 3)]),
    (b"0123456789", 0, &[(5, 0, 1), (4, 2, 1), (9, 2, 3)]),
    (b"0123456789", 0, &[(5, 0, 1), (10, 1, 2), (9, 3, 2)]),
    (b"0123456789", 0, &[(7, 0, 1), (14, 2, 1), (15, 2, 3), (9, 3, 4)]),
    (b"0123456789", 0, &[(7, 0, 1), (14, 1, 2), (15, 3, 2), (9, 3, 4)]),
    (b"0123456789", 0, &[(7, 0, 1), (10, 1, 2), (14, 2, 3), (4, 4, 3), (15, 4, 5), (9, 5, 6)]),
    (b"0123456789", 0, &[(7, 0, 1), (14, 2, 3), (200, 4, 3), (15, 4, 5), (9, 5, 6)]),
    // Refusal 40 in the indent pass: outside the text; also in double quotes, and before
    // an escape without a value.
    (b"0123", 0, &[(5, 0, 1), (10, 1, 5), (9, 5, 6)]),
    (b"0123", 0, &[(6, 0, 1), (10, 1, 5), (9, 5, 6)]),
    (b"0123", 0, &[(5, 0, 1), (10, 5, 5), (9, 5, 6)]),
    (b"0123", 0, &[(5, 0, 1), (10, 4, 4), (9, 5, 6)]),
    (b"0123", 0, &[(5, 0, 1), (10, 1, LONGEST), (9, 5, 6)]),
    (b"0\\N3", 0, &[(5, 0, 1), (11, 1, 3), (10, 1, 5), (9, 5, 6)]),
    (b"0\\N3", 0, &[(5, 0, 1), (11, 1, 3), (10, 1, 5), (4, 5, 6)]),
    (b"0123", 0, &[(5, 0, 1), (11, 3, 5), (9, 5, 6)]),
    (b"0123", 0, &[(7, 0, 1), (14, 1, 2), (15, 2, 5), (9, 5, 6)]),
    (b"0123", 0, &[(7, 0, 1), (14, 9, 9), (15, 2, 3), (9, 3, 4)]),
    // Lexemes within a hole, and the quotes, may lie outside.
    (b"0123", 0, &[(7, 8, 9), (14, 1, 2), (4, 6, 7), (15, 2, 3), (9, 7, 8)]),
    (b"0123", 0, &[(7, 8, 9), (10, 1, 2), (9, 7, 8)]),
    // Refusal 40 in the escape pass: the forms.
    (b"\\n\\u0041\\u{41}", 0, &[(5, 0, 0), (11, 0, 1), (9, 0, 0)]),
    (b"\\n\\u0041\\u{41}", 0, &[(5, 0, 0), (11, 0, 3), (9, 0, 0)]),
    (b"\\n\\u0041\\u{41}", 0, &[(5, 0, 0), (11, 1, 3), (9, 0, 0)]),
    (b"\\n\\u0041\\u{41}", 0, &[(5, 0, 0), (11, 0, 0), (9, 0, 0)]),
    (b"\\n\\u0041\\u{41}", 0, &[(5, 0, 0), (11, 2, 4), (9, 0, 0)]),
    (b"\\n\\u0041\\u{41}", 0, &[(5, 0, 0), (12, 2, 7), (9, 0, 0)]),
    (b"\\n\\u0041\\u{41}", 0, &[(5, 0, 0), (12, 2, 9), (9, 0, 0)]),
    (b"\\n\\u0041\\u{41}", 0, &[(5, 0, 0), (12, 0, 2), (9, 0, 0)]),
    (b"\\n\\u0041\\u{41}", 0, &[(5, 0, 0), (12, 8, 14), (9, 0, 0)]),
    (b"\\n\\u0041\\u{41}", 0, &[(5, 0, 0), (13, 8, 13), (9, 0, 0)]),
    (b"\\n\\u0041\\u{41}", 0, &[(5, 0, 0), (13, 2, 8), (9, 0, 0)]),
    (b"\\u{4g}\\u{}\\u00g0", 0, &[(5, 0, 0), (13, 0, 6), (9, 0, 0)]),
    (b"\\u{4g}\\u{}\\u00g0", 0, &[(5, 0, 0), (13, 6, 10), (9, 0, 0)]),
    (b"\\u{4g}\\u{}\\u00g0", 0, &[(5, 0, 0), (12, 10, 16), (9, 0, 0)]),
    (b"\\\xff\\\n", 0, &[(5, 0, 0), (11, 0, 2), (9, 0, 0)]),
    (b"\\\xff\\\n", 0, &[(5, 0, 0), (11, 2, 4), (9, 0, 0)]),
    // An empty inner part alone, and beside others.
    (b"ab", 0, &[(5, 0, 0), (10, 1, 1), (9, 0, 0)]),
    (b"ab", 0, &[(6, 0, 0), (10, 2, 2), (9, 0, 0)]),
    (b"ab", 0, &[(5, 0, 0), (10, 1, 1), (10, 0, 2), (9, 0, 0)]),
    (b"ab", 0, &[(7, 0, 0), (14, 1, 1), (15, 1, 1), (10, 1, 1), (9, 0, 0)]),
    // Parts that overlap, or stand in another order than in the text.
    (b"abcd", 0, &[(5, 0, 0), (10, 2, 4), (10, 0, 3), (10, 0, 1), (9, 0, 0)]),
    // What the lexer would have cut at a line's end; a blank line's next part.
    (b"\n  \n  \n    b", 0, &[(6, 0, 0), (10, 0, 6), (10, 6, 12), (9, 0, 0)]),
    (b"\n  \n  \n    b", 0, &[(8, 0, 0), (10, 0, 3), (10, 6, 12), (9, 0, 0)]),
    (b"\n  \n  \n    b", 0, &[(8, 0, 0), (10, 0, 3), (10, 4, 4), (10, 6, 12), (9, 0, 0)]),
    (b"\n  \\n\n    b", 0, &[(8, 0, 0), (10, 0, 3), (11, 3, 5), (10, 5, 11), (9, 0, 0)]),
    (b"\n  \\n\n    b", 0, &[(8, 0, 0), (10, 0, 3), (14, 3, 4), (15, 4, 5), (10, 5, 11), (9, 0, 0)]),
    (b"\n  \\n\n    b", 0, &[(6, 0, 0), (10, 5, 11), (10, 0, 3), (9, 0, 0)]),
    (b"\n  \\n\n    b", 0, &[(6, 0, 0), (10, 0, 1), (10, 5, 11), (9, 0, 0)]),
    (b"\n  \\n\n    b", 0, &[(6, 0, 0), (10, 5, 11), (10, 0, 1), (9, 0, 0)]),
    (b"\xc3\xa9\n \xff", 0, &[(6, 0, 0), (10, 1, 2), (10, 2, 5), (9, 0, 0)]),
];

/// A count below and above the places of the list.
fn counts() -> Vec<Case> {
    let counts = [0, 1, 3, 4, 5, 6, usize::MAX];
    let with = |count| Case {
        count,
        ..case(
            b"f\"a{b}c\"",
            0,
            &[(7, 0, 2), (10, 2, 3), (14, 3, 4), (15, 5, 6), (9, 7, 8)],
        )
    };
    counts.map(with).to_vec()
}

/// Two documents: in a hole's two ends alone they matter.
fn documents() -> Vec<Case> {
    let whole = || {
        case(
            b"f\"a{b}c\"",
            0,
            &[
                (7, 0, 2),
                (10, 2, 3),
                (14, 3, 4),
                (4, 4, 5),
                (15, 5, 6),
                (10, 6, 7),
                (9, 7, 8),
            ],
        )
    };
    let moved = |place: usize| {
        let mut case = whole();
        let at = case.list[place].at;
        case.list[place].at = Words::new(3, at.start(), at.end());
        case
    };
    (0..7).map(moved).collect()
}

/// Each number of places for the parts, up to those that are needed.
fn full_lists() -> Vec<Case> {
    let with = |room| Case {
        room,
        ..case(
            b"f\"a{b}\\n\"",
            0,
            &[
                (7, 0, 2),
                (10, 2, 3),
                (14, 3, 4),
                (15, 5, 6),
                (11, 6, 8),
                (9, 8, 9),
            ],
        )
    };
    (0..=4).map(with).collect()
}
