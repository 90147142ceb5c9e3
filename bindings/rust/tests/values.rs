//! Values in the text and in the output, handing back, parts, indent and escapes.

mod common;

use common::{lexed, refused, span, value_at, Arrays, Read, AMPLE, DOC, PROTOCOL};
use rcl::{count_common_leading_spaces, hand, lex, parts, scalar_value, unescape};
use rcl::{value, write_value, Held, Kind, List, Span, Value, LARGEST_OFFSET};

fn text(bytes: &str) -> Result<Read, rcl::Refusal> {
    Ok(Read::Text(bytes.as_bytes().to_vec()))
}

fn output(bytes: &str) -> Result<Read, rcl::Refusal> {
    Ok(Read::Output(bytes.as_bytes().to_vec()))
}

#[test]
fn one_unbroken_part_is_text() {
    assert_eq!(value_at(br#""A1""#, 0), text("A1"));
    assert_eq!(
        value_at("\"Gr\u{fc}\u{df}e\"".as_bytes(), 0),
        text("Gr\u{fc}\u{df}e")
    );
    assert_eq!(value_at(br#""""a b c""""#, 0), text("a b c"));
    assert_eq!(value_at(br#"x = f"row""#, 2), text("row"));
}

#[test]
fn anything_else_is_output() {
    assert_eq!(value_at(br#""""#, 0), output(""));
    assert_eq!(value_at(br#"f"{a}""#, 0), output(""));
    assert_eq!(value_at(br#""""a "b" c""""#, 0), output(r#"a "b" c"#));
    assert_eq!(
        value_at(br#"f"row {n}, col {m}!""#, 0),
        output("row , col !")
    );
    assert_eq!(
        value_at(br#""\"\\\/\b\f\n\r\t\{\}""#, 0),
        output("\"\\/\u{8}\u{c}\n\r\t{}")
    );
    assert_eq!(
        value_at(br#""\u00e9\u{1F52C}""#, 0),
        output("\u{e9}\u{1f52c}")
    );
}

#[test]
fn triple_quotes_lose_their_indent() {
    let indented = b"\"\"\"\n    a\n\n      b\n    \"\"\"";
    assert_eq!(value_at(indented, 0), output("\na\n\n  b\n"));
    assert_eq!(value_at(b"\"\n    a\"", 0), text("\n    a"));
    assert_eq!(value_at(b"\"\"\"\na\"\"\"", 0), text("\na"));
}

#[test]
fn each_string_of_a_protocol() {
    let lexemes = lexed(PROTOCOL).1;
    let places = (0..lexemes.len()).filter(|place| lexemes[*place].kind.is_quote_open());
    let found: Vec<_> = places.map(|place| value_at(PROTOCOL, place)).collect();
    let expected = [
        text("A1"),
        output("row , "),
        output("column "),
        text("B1"),
        output("caf\u{e9} \"2\" \u{1f52c}"),
        output("\nFocus first,\n  then scan.\n"),
    ];
    assert_eq!(found, expected);
}

/// Lexes `$text` into `$list`, with memory that the test keeps.
macro_rules! lexed_list {
    ($text:expr, $list:ident) => {
        let (mut arrays, mut openers) = (Arrays::new(AMPLE), Arrays::new(AMPLE));
        let mut $list = arrays.list();
        let lexed = lex(DOC, $text, &mut $list, &mut openers.stack());
        assert_eq!(lexed.answer, Ok(()));
    };
}

#[test]
fn a_value_in_the_text_outlives_the_output() {
    let text = br#""A1""#.to_vec();
    lexed_list!(&text, list);
    let found = {
        let (mut arrays, mut output) = (Arrays::new(AMPLE), [0; 8]);
        match value(&text, list.entries(), 0, &mut arrays.list(), &mut output, 0) {
            Ok(Value::Text(bytes)) => bytes,
            other => panic!("{other:?}"),
        }
    };
    assert_eq!(found, b"A1");
    assert_eq!(found.as_ptr(), text[1..].as_ptr());
}

#[test]
fn values_one_after_the_other() {
    let text = br#"["a\tb", "plain", "c\td"]"#;
    lexed_list!(text, list);
    let (mut arrays, mut output) = (Arrays::new(AMPLE), [0; 6]);
    let mut found = Vec::new();
    for (place, position) in list.entries().strings().zip([0, 3, 3]) {
        let mut parts = arrays.list();
        found.push(write_value(
            text,
            list.entries(),
            place,
            &mut parts,
            &mut output,
            position,
        ));
    }
    let expected = [
        Held::Output { start: 0, end: 3 },
        Held::Text { start: 10, end: 15 },
        Held::Output { start: 3, end: 6 },
    ];
    assert_eq!(found, expected.map(Ok));
    let bytes = expected.map(|held| hand(text, &output, held).unwrap().bytes());
    assert_eq!(bytes, [&b"a\tb"[..], b"plain", b"c\td"]);
}

#[test]
fn an_output_that_does_not_suffice() {
    let text = br#""ab\ncd""#;
    lexed_list!(text, list);
    let (mut arrays, mut output) = (Arrays::new(AMPLE), *b"....");
    let mut found = arrays.list();
    let answer = write_value(text, list.entries(), 0, &mut found, &mut output, 0);
    assert_eq!(answer, Err(refused(46, 5, 7)));
    assert_eq!((&output, found.entries().len()), (b"ab\n.", 3));
    let past = write_value(text, list.entries(), 0, &mut found, &mut output, usize::MAX);
    assert_eq!(past, Err(refused(46, 1, 3)));
}

#[test]
fn another_text_than_the_lists() {
    lexed_list!(br#""ab\ncd""#, list);
    let (mut arrays, mut output) = (Arrays::new(AMPLE), [0; 8]);
    let answer = write_value(
        b"\"ab",
        list.entries(),
        0,
        &mut arrays.list(),
        &mut output,
        0,
    );
    assert_eq!(answer, Err(refused(40, 3, 5)));
}

#[test]
fn handing_back_what_is_not_there() {
    let number = |held| hand(b"abcd", b"xyz", held).map_err(|refusal| refusal.number);
    assert_eq!(
        number(Held::Text { start: 4, end: 4 }),
        Ok(Value::Text(b""))
    );
    assert_eq!(
        number(Held::Output { start: 0, end: 3 }),
        Ok(Value::Output(b"xyz"))
    );
    assert_eq!(number(Held::Output { start: 0, end: 4 }), Err(40));
    assert_eq!(number(Held::Text { start: 5, end: 5 }), Err(40));
    assert_eq!(number(Held::Text { start: 3, end: 2 }), Err(3));
    let end = LARGEST_OFFSET + 1;
    assert_eq!(number(Held::Output { start: 0, end }), Err(3));
    assert_eq!(
        number(Held::Output {
            start: usize::MAX,
            end: usize::MAX
        }),
        Err(3)
    );
}

#[test]
fn parts_of_nested_strings() {
    let text = br#"f"a{f"b{c}"}\n""#;
    lexed_list!(text, list);
    let mut arrays = Arrays::new(AMPLE);
    let mut found = arrays.list();
    assert_eq!(parts(list.entries(), 0, &mut found), Ok(11));
    let listed: Vec<_> = found
        .entries()
        .iter()
        .map(|part| (part.kind, part.span))
        .collect();
    let expected = [
        (Kind::StringInner, span(2, 3)),
        (Kind::HoleOpen, span(3, 12)),
        (Kind::EscapeSingle, span(12, 14)),
    ];
    assert_eq!(listed, expected);
    assert_eq!(parts(list.entries(), 3, &mut found), Ok(8));
    assert_eq!(found.entries().len(), 2);
}

#[test]
fn indent_over_the_parts() {
    let text = b"\"\"\"\n    a\n  b\"\"\"";
    lexed_list!(text, list);
    let mut arrays = Arrays::new(AMPLE);
    let mut found = arrays.list();
    assert_eq!(parts(list.entries(), 0, &mut found), Ok(3));
    assert_eq!(count_common_leading_spaces(text, found.entries()), Ok(2));
    let short = count_common_leading_spaces(&text[..9], found.entries());
    assert_eq!(short, Err(refused(40, 9, 13)));
    let none = List::new(&mut [], &mut []);
    assert_eq!(count_common_leading_spaces(text, none.entries()), Ok(0));
    let quotes = count_common_leading_spaces(text, list.entries());
    assert_eq!(quotes, Err(refused(40, 0, 3)));
}

#[test]
fn escapes_alone() {
    let scalar = |text: &[u8], kind| scalar_value(text, span(0, text.len()), kind);
    assert_eq!(scalar(br"\n", Kind::EscapeSingle), Ok('\n'));
    assert_eq!(
        scalar(br"\u{10FFFF}", Kind::EscapeUnicodeDelim),
        Ok('\u{10ffff}')
    );
    assert_eq!(scalar(br"\u0000", Kind::EscapeUnicode4), Ok('\0'));
    assert_eq!(scalar(br"\n", Kind::Ident), Err(refused(40, 0, 2)));
    assert_eq!(
        scalar(br"\u00", Kind::EscapeUnicode4),
        Err(refused(40, 0, 4))
    );
    let outside = scalar_value(br"\n", span(1, 3), Kind::EscapeSingle);
    assert_eq!(outside, Err(refused(40, 1, 3)));
    let backwards = scalar_value(br"\n", span(2, 0), Kind::EscapeSingle).unwrap_err();
    assert_eq!((backwards.number, backwards.span), (3, Span::default()));
}

#[test]
fn an_escape_is_written_whole_or_not() {
    let (text, at, kind) = (br"\u{1F52C}", span(0, 9), Kind::EscapeUnicodeDelim);
    let mut output = *b"......";
    assert_eq!(
        unescape(text, at, kind, &mut output, 3),
        Err(refused(46, 0, 9))
    );
    assert_eq!(&output, b"......");
    assert_eq!(
        unescape(text, at, kind, &mut output, usize::MAX),
        Err(refused(46, 0, 9))
    );
    assert_eq!(unescape(text, at, kind, &mut output, 1), Ok(4));
    assert_eq!(&output, b".\xf0\x9f\x94\xac.");
}

#[test]
fn names() {
    assert!(rcl::is_identifier(b"_a-1") && !rcl::is_identifier(b"1a"));
    assert!(!rcl::is_identifier(b"") && !rcl::is_identifier(b"\xff"));
    assert!(rcl::is_keyword(b"import") && !rcl::is_keyword(b"imports"));
    assert!(!rcl::is_keyword(b""));
}
