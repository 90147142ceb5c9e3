//! Document 01's marked pairs, and its worked example.

mod common;

use common::{lexed, listed, refused, span, value_at, Read};
use rcl::{Counts, Refusal, Span};

#[test]
fn a_empty_text() {
    let (lexed, lexemes) = lexed(b"");
    assert_eq!(lexed.answer, Ok(()));
    assert_eq!(lexed.counts, Counts::default());
    assert!(lexemes.is_empty());
}

#[test]
fn b_two_decimals() {
    assert_eq!(listed(b"01"), [(18, 0, 1), (18, 1, 2)]);
}

#[test]
fn c_no_digit_after_the_dot() {
    assert_eq!(lexed(b"1..2").0.answer, Err(refused(16, 1, 2)));
}

#[test]
fn d_dashes_given_back() {
    let expected = [(4, 0, 1), (52, 1, 2), (45, 2, 4), (4, 4, 5)];
    assert_eq!(listed(b"x-->y"), expected);
}

#[test]
fn e_no_digit_in_the_exponent() {
    assert_eq!(lexed(b"1e+").0.answer, Err(refused(17, 3, 3)));
}

#[test]
fn f_no_binary_digit() {
    assert_eq!(lexed(b"0b_").0.answer, Err(refused(14, 0, 3)));
}

#[test]
fn g_a_run_of_control_bytes() {
    assert_eq!(lexed(b"\x0b\n").0.answer, Err(refused(10, 0, 2)));
}

#[test]
fn h_a_comment_in_a_hole() {
    let (lexed, lexemes) = lexed(b"f\"{a // b}\"");
    let expected = Refusal {
        note: Some(span(2, 3)),
        ..refused(26, 11, 11)
    };
    assert_eq!(lexed.answer, Err(expected));
    assert_eq!((lexed.counts.lexemes, lexemes.len()), (4, 4));
}

#[test]
fn i_another_closer_due() {
    let expected = Refusal {
        note: Some(span(0, 1)),
        ..refused(24, 1, 2)
    };
    assert_eq!(lexed(b"(]").0.answer, Err(expected));
}

#[test]
fn j_an_escape_without_digits() {
    assert_eq!(listed(b"\"\\u{}\""), [(5, 0, 1), (13, 1, 5), (9, 5, 6)]);
    assert_eq!(value_at(b"\"\\u{}\"", 0), Err(refused(43, 1, 5)));
}

#[test]
fn k_seven_digits_and_six() {
    assert_eq!(value_at(b"\"\\u{0000041}\"", 0), Err(refused(44, 1, 12)));
    let six = value_at(b"\"\\u{000041}\"", 0);
    assert_eq!(six, Ok(Read::Output(b"A".to_vec())));
}

#[test]
fn l_the_words_of_a_span() {
    let span = Span {
        start: 1,
        end: 3,
        doc: 2,
    };
    let words = [844424930131969, 8589934592];
    assert_eq!(span.pack(), Ok(words));
    assert_eq!(Span::unpack(words), span);
}

#[test]
fn the_worked_example() {
    let text = b"a = f\"{b-1}\";";
    let expected = [
        (4, 0, 1),
        (47, 2, 3),
        (7, 4, 6),
        (14, 6, 7),
        (4, 7, 10),
        (15, 10, 11),
        (9, 11, 12),
        (58, 12, 13),
    ];
    assert_eq!(listed(text), expected);
    let counts = Counts {
        lexemes: 8,
        steps: 10,
        kept: 11,
        dropped: 2,
        deepest: 2,
    };
    assert_eq!(lexed(text).0.counts, counts);
}
