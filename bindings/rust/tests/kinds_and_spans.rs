//! The codes of kinds, the words of spans, and lists that were filled before.

mod common;

use common::{lexed, Arrays};
use rcl::{Entries, Kind, Span, LARGEST_OFFSET};

#[test]
fn each_code_is_its_place_in_the_table() {
    for (code, kind) in (0..60).zip(Kind::ALL) {
        assert_eq!(kind.code(), code);
        assert_eq!(Kind::from_code(code), Some(kind));
    }
    assert!((60..=255).all(|code| Kind::from_code(code).is_none()));
}

#[test]
fn sorts_of_kinds_by_code() {
    let codes = |is: fn(Kind) -> bool| -> Vec<u8> {
        let kinds = Kind::ALL.into_iter().filter(|kind| is(*kind));
        kinds.map(Kind::code).collect()
    };
    assert_eq!(codes(Kind::is_quote_open), [5, 6, 7, 8]);
    assert_eq!(codes(Kind::is_escape), [11, 12, 13]);
    assert_eq!(codes(Kind::is_opener), [5, 6, 7, 8, 14, 33, 35, 37]);
}

/// One text for each kind that a list can hold: its bytes alone make a lexeme of it.
#[test]
fn the_library_gives_these_codes() {
    let keywords = "and assert false for else if import in let not null or trace true";
    let found = lexed(keywords.as_bytes()).1;
    let codes: Vec<u8> = found.iter().map(|lexeme| lexeme.kind.code()).collect();
    assert_eq!(codes, (19..=32).collect::<Vec<u8>>());

    let punctuation = "( ) [ ] { } < > <= >= == != -> => = ! * + , - . .. ... / : ; |";
    let found = lexed(punctuation.as_bytes()).1;
    let codes: Vec<u8> = found.iter().map(|lexeme| lexeme.kind.code()).collect();
    assert_eq!(codes, (33..=59).collect::<Vec<u8>>());

    let others =
        b"#!\n\n//\nx 0x1 0b1 1 \"\\n\" \"\"\"a\"\"\" f\"\\u0041\" f\"\"\"\\u{41}{a}\"\"\"";
    let found = lexed(others).1;
    let codes: Vec<u8> = found.iter().map(|lexeme| lexeme.kind.code()).collect();
    let expected = [
        2, 1, 3, 4, 16, 17, 18, 5, 11, 9, 6, 10, 9, 7, 12, 9, 8, 13, 14, 4, 15, 9,
    ];
    assert_eq!(codes, expected);
}

#[test]
fn packing_and_unpacking() {
    let ends = [0, 1, 0xffff, 0x10000, 0xffff_ffff, LARGEST_OFFSET];
    for (start, end, doc) in ends
        .into_iter()
        .flat_map(|end| [(0, end, 0), (end, end, u32::MAX), (end / 2, end, 9)])
    {
        let span = Span { start, end, doc };
        assert_eq!(Span::unpack(span.pack().unwrap()), span);
    }
}

#[test]
fn spans_that_have_no_words() {
    let over = LARGEST_OFFSET + 1;
    for (start, end) in [(1, 0), (0, over), (over, over), (usize::MAX, 0)] {
        let refusal = Span { start, end, doc: 1 }.pack().unwrap_err();
        assert_eq!((refusal.number, refusal.span), (3, Span::default()));
    }
}

#[test]
fn any_two_words_are_a_span() {
    let last = Span::unpack([u64::MAX, u64::MAX]);
    assert_eq!(last.range(), LARGEST_OFFSET..LARGEST_OFFSET);
    assert_eq!(last.doc, u32::MAX);
    let backwards = Span::unpack([5, 0]);
    assert_eq!((backwards.start, backwards.end), (5, 0));
}

#[test]
fn places_are_the_smaller_number() {
    for (kinds, words, places) in [(3, 6, 3), (3, 5, 2), (2, 9, 2), (0, 9, 0), (4, 1, 0)] {
        let mut arrays = Arrays::new(0);
        arrays.kinds.resize(kinds, 0);
        arrays.words.resize(words, 0);
        assert_eq!(arrays.list().places(), places);
        assert_eq!(arrays.stack().places(), places);
        let entries = Entries::new(&arrays.kinds, &arrays.words, usize::MAX).unwrap();
        assert_eq!((entries.len(), entries.iter().count()), (places, places));
        assert_eq!(entries.get(places), None);
    }
}

#[test]
fn a_code_over_59_is_no_entry() {
    let words = [0, 0, 844424930131969, 8589934592];
    let refusal = Entries::new(&[4, 60], &words, 2).unwrap_err();
    let span = Span {
        start: 1,
        end: 3,
        doc: 2,
    };
    assert_eq!((refusal.number, refusal.span), (40, span));
    assert_eq!(Entries::new(&[4, 60], &words, 1).unwrap().len(), 1);
}
