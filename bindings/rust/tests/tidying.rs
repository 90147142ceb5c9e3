//! The tidy writer.

mod common;

use common::{lexed, refused, short_texts, Arrays, AMPLE, DOC, PROTOCOL};
use rcl::{tidy, Lexed};

/// What is answered, and the whole output.
fn tidied(text: &[u8], mut output: Vec<u8>) -> (Lexed, Vec<u8>, Vec<u8>) {
    let (mut arrays, mut openers) = (Arrays::new(AMPLE), Arrays::new(AMPLE));
    let tidied = tidy(
        DOC,
        text,
        &mut arrays.list(),
        &mut openers.stack(),
        &mut output,
    );
    let (lexed, written) = (tidied.lexed, tidied.written.to_vec());
    (lexed, written, output)
}

fn written(text: &[u8]) -> Vec<u8> {
    let (lexed, written, _) = tidied(text, vec![0; 1024]);
    assert_eq!(lexed.answer, Ok(()));
    written
}

#[test]
fn the_worked_example() {
    let tidy = br#"a = f"{ b-1 }" ;"#;
    assert_eq!(written(br#"a = f"{b-1}";"#), tidy);
    assert_eq!(written(tidy), tidy);
}

#[test]
fn gaps() {
    assert_eq!(written(b""), b"");
    assert_eq!(written(b"  "), b"");
    assert_eq!(written(b" (a) "), b"( a )");
    assert_eq!(written(b"#! x\na // c\nb"), b"#! x\na // c\nb");
    assert_eq!(written(b"a // c\n\n b"), b"a // c\n\n b");
}

#[test]
fn tidied_again_it_is_the_same() {
    let once = written(PROTOCOL);
    assert_eq!(written(&once), once);
}

#[test]
fn a_full_output() {
    let (lexed, written, output) = tidied(br#"a = f"{b-1}";"#, vec![b'.'; 15]);
    assert_eq!(lexed.answer, Err(refused(46, 12, 13)));
    assert_eq!(lexed.counts.lexemes, 8);
    assert_eq!(written, br#"a = f"{ b-1 }""#);
    assert_eq!(output, br#"a = f"{ b-1 }"."#);
}

#[test]
fn refusals_of_lexing_come_first() {
    let (lexed, written, output) = tidied(b"a ]", Vec::new());
    assert_eq!(lexed.answer, Err(refused(23, 2, 3)));
    assert_eq!((written.len(), output.len()), (0, 0));
}

/// Accepted texts give the same kinds and bytes again; of the others nothing is written.
#[test]
fn short_texts_keep_their_lexemes() {
    let bytes = |text: &[u8]| -> Vec<_> {
        let lexemes = lexed(text).1.into_iter();
        let pairs = lexemes.map(|lexeme| (lexeme.kind, text[lexeme.span.range()].to_vec()));
        pairs.collect()
    };
    for text in short_texts() {
        let (answer, written, _) = tidied(&text, vec![0; 2 * text.len()]);
        assert_eq!(answer, lexed(&text).0);
        match answer.answer {
            Ok(()) => assert_eq!(bytes(&written), bytes(&text), "{text:?}"),
            Err(_) => assert!(written.is_empty()),
        }
    }
}
