//! Every refusal that the safe calls can give, with its span and note.

mod common;

use common::{lex_within, lexed, refused, span, value_at, Arrays, AMPLE};
use rcl::{lex, lex_to_vec, parts, utf8, Refusal, EXPLANATIONS};

#[test]
fn of_the_text() {
    let cases: [(&[u8], u8, usize, usize); 16] = [
        (b"ab\xe2\x82A", 1, 2, 2),
        (b"a \x01\n\x7f", 10, 2, 5),
        ("a \u{e9}\u{e9}".as_bytes(), 11, 2, 6),
        (b"a $", 12, 2, 3),
        (b"#a", 13, 0, 1),
        (b"0b", 14, 0, 2),
        (b"0x__", 15, 0, 4),
        (b"1.", 16, 1, 2),
        (b"1else", 17, 2, 2),
        (b"\"\\u{12", 18, 6, 6),
        (b"\"\\u12\"", 19, 1, 5),
        (b"\"\\", 20, 1, 2),
        (b"\"\\\n", 21, 1, 3),
        ("\"\\\u{e9}".as_bytes(), 22, 1, 4),
        (b")", 23, 0, 1),
        (b"f\"{}}", 28, 5, 5),
    ];
    for (text, number, start, end) in cases {
        let refusal = lexed(text).0.answer.unwrap_err();
        let found = (refusal.number, refusal.span);
        assert_eq!(found, (number, span(start, end)), "{text:?}");
        assert_eq!(refusal.note.is_some(), number >= 24, "{text:?}");
    }
}

#[test]
fn with_the_opener_as_note() {
    let cases: [(&[u8], Refusal, (usize, usize)); 8] = [
        (b"(a]", refused(24, 2, 3), (0, 1)),
        (b"[f\"{)", refused(24, 4, 5), (3, 4)),
        (b"((a)", refused(25, 4, 4), (0, 1)),
        (b"{a [", refused(25, 4, 4), (3, 4)),
        (b"f\"{a", refused(26, 4, 4), (2, 3)),
        (b"\"\"\"a\"", refused(27, 5, 5), (0, 3)),
        (b"f\"a", refused(28, 3, 3), (0, 2)),
        (b"f\"\"\"a", refused(28, 5, 5), (0, 4)),
    ];
    for (text, refusal, (start, end)) in cases {
        let note = Some(span(start, end));
        let expected = Refusal { note, ..refusal };
        assert_eq!(lexed(text).0.answer, Err(expected), "{text:?}");
    }
}

#[test]
fn full_stack_and_full_list() {
    let text = b"a (b) ]";
    let refusal = |places, stack| lex_within(text, places, stack).0.answer.unwrap_err();
    assert_eq!(refusal(0, 0), refused(31, 0, 1));
    assert_eq!(refusal(1, 0), refused(30, 2, 3));
    assert_eq!(refusal(1, 1), refused(31, 2, 3));
    assert_eq!(refusal(4, 1), refused(23, 6, 7));
}

#[test]
fn of_values() {
    let cases: [(&[u8], u8, usize, usize); 8] = [
        (b"\"\\q\"", 41, 1, 3),
        (b"\"\\N\"", 42, 1, 3),
        (b"\"\\N\\u{}\"", 42, 1, 3),
        (b"\"a\\u{}\"", 43, 2, 6),
        (b"\"\\u{1234567}\"", 44, 1, 12),
        (b"\"\\ud800\"", 45, 1, 7),
        (b"\"\\u{110000}\"", 45, 1, 11),
        (b"\"ok\\n\\u{dfff}\"", 45, 5, 13),
    ];
    for (text, number, start, end) in cases {
        assert_eq!(
            value_at(text, 0),
            Err(refused(number, start, end)),
            "{text:?}"
        );
    }
}

#[test]
fn no_string_at_this_place() {
    assert_eq!(value_at(b"a + 1", 1), Err(refused(50, 2, 3)));
    let past = value_at(b"\"a\"", 3).unwrap_err();
    assert_eq!(
        (past.number, past.span.range(), past.span.doc),
        (50, 0..0, 0)
    );
}

#[test]
fn full_list_of_parts() {
    let (mut arrays, mut openers, mut little) =
        (Arrays::new(AMPLE), Arrays::new(AMPLE), Arrays::new(1));
    let mut list = arrays.list();
    let lexed = lex(common::DOC, br#""a\n""#, &mut list, &mut openers.stack());
    assert_eq!(lexed.answer, Ok(()));
    let mut found = little.list();
    assert_eq!(parts(list.entries(), 0, &mut found), Err(refused(31, 2, 4)));
    assert_eq!(found.entries().len(), 1);
}

#[test]
fn utf8_by_offset() {
    assert_eq!(utf8(b""), Ok(()));
    assert_eq!(utf8("\u{10ffff}\u{800}\u{80}".as_bytes()), Ok(()));
    assert_eq!(utf8(b"\xed\xa0\x80"), Err(0));
    assert_eq!(utf8(b"abc\xf0\x9f\x94"), Err(3));
}

#[test]
fn each_number_has_its_words() {
    let numbers: Vec<u8> = EXPLANATIONS.iter().map(|(number, _)| *number).collect();
    let table: Vec<u8> = [1..=3, 10..=28, 30..=31, 40..=46, 50..=50]
        .into_iter()
        .flatten()
        .collect();
    assert_eq!(numbers, table);
    for (number, words) in EXPLANATIONS {
        assert!(!words.is_empty());
        assert_eq!(refused(number, 0, 0).explanation(), words);
    }
    assert_eq!(refused(29, 0, 0).explanation(), "");
}

#[test]
fn printed() {
    let refusal = lex_to_vec(1, b"1.").unwrap_err();
    assert_eq!(
        refusal.to_string(),
        "refusal 16 at 1-2: no digit right after the dot"
    );
    let refusal = lex_to_vec(1, b"\"").unwrap_err();
    assert_eq!(
        refusal.to_string(),
        "refusal 27 at 1-1, note at 0-1: end reached in a string"
    );
}
