//! Lexing calls, counted.

mod common;

use common::{lexed, Arrays, AMPLE, DOC, PROTOCOL};
use rcl::{lex_tallied, Lexed, Tally};

fn count(tally: &mut Tally, text: &[u8]) -> Lexed {
    let (mut arrays, mut openers) = (Arrays::new(AMPLE), Arrays::new(AMPLE));
    let mut list = arrays.list();
    let lexed = lex_tallied(tally, DOC, text, &mut list, &mut openers.stack());
    assert_eq!(list.entries().len(), lexed.counts.lexemes);
    lexed
}

#[test]
fn it_answers_as_lexing_does() {
    for text in [PROTOCOL, b"", b"(]", b"\xff", b"a ]"] {
        assert_eq!(count(&mut Tally::default(), text), lexed(text).0);
    }
}

#[test]
fn steps_of_refused_calls_count_too() {
    let mut tally = Tally::default();
    assert!(count(&mut tally, b"a + b").answer.is_ok());
    assert!(count(&mut tally, b"a ]").answer.is_err());
    assert!(count(&mut tally, b"\xff").answer.is_err());
    assert!(count(&mut tally, b"").answer.is_ok());
    let expected = Tally {
        accepted: 2,
        refused: 2,
        steps: 5 + 2,
    };
    assert_eq!(tally, expected);
}

#[test]
fn each_number_stops_at_the_largest() {
    let last = Tally {
        accepted: u64::MAX,
        refused: u64::MAX,
        steps: u64::MAX - 1,
    };
    let full = Tally {
        steps: u64::MAX,
        ..last
    };
    let mut tally = last;
    assert!(count(&mut tally, b"a").answer.is_ok());
    assert_eq!(tally, full);
    assert!(count(&mut tally, b"a ]").answer.is_err());
    assert_eq!(tally, full);
    let mut tally = last;
    assert!(count(&mut tally, b"a + b").answer.is_ok());
    assert_eq!(tally, full);
}
