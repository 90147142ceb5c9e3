//! The judge held to the examples that document 01 works out by hand.

use crate::generate::chosen::MARKED;
use crate::lexer::Escape;
use crate::reference::{answer, trace, Answer, Counts, AMPLE};
use crate::refusal::{of_escape, Refusal};
use crate::respace::{respaced, tidied};
use crate::source::{words, DocId, Span};
use crate::string::unescape_into;
use crate::strings::case::Case;
use crate::strings::hand::{handed, handed_or_empty};
use crate::strings::value::Held;
use crate::strings::{Refused, Words, LONGEST, NOWHERE};
use crate::tally::Tally;
use crate::walker::told::Told;
use crate::walker::{opened, walk, Given, Place, Stack, Stepped, Walked};
use crate::whitespace::measured;

const DOC: DocId = DocId(7);

fn span(start: usize, end: usize) -> Span {
    Span::new(DOC, start, end)
}

fn lexed(text: &[u8]) -> Answer {
    answer(text, DOC, AMPLE, AMPLE)
}

fn refused(text: &[u8], number: u8, start: usize, end: usize, note: Option<(usize, usize)>) {
    let expected = Refusal {
        number,
        span: span(start, end),
        note: note.map(|(start, end)| span(start, end)),
    };
    assert_eq!(lexed(text).refusal, Some(expected), "{:?}", text);
}

fn listed(text: &[u8], expected: &[(u8, usize, usize)]) {
    let answer = lexed(text);
    let found: Vec<_> = answer
        .listed
        .iter()
        .map(|l| (l.code, l.span.start(), l.span.end()))
        .collect();
    assert_eq!(found, expected, "{:?}", text);
    assert_eq!(answer.refusal, None);
}

#[test]
fn the_listing() {
    let text = b"a = f\"{b-1}\";";
    let spans = [
        (4, 0, 1),
        (47, 2, 3),
        (7, 4, 6),
        (14, 6, 7),
        (4, 7, 10),
        (15, 10, 11),
        (9, 11, 12),
        (58, 12, 13),
    ];
    listed(text, &spans);
    let counts = Counts {
        lexemes: 8,
        steps: 10,
        kept: 11,
        dropped: 2,
        deepest: 2,
    };
    assert_eq!(lexed(text).counts, counts);
}

#[test]
fn accepted_pairs() {
    listed(b"", &[]);
    assert_eq!(lexed(b"").counts, Counts::default());
    listed(b"01", &[(18, 0, 1), (18, 1, 2)]);
    listed(b"x-->y", &[(4, 0, 1), (52, 1, 2), (45, 2, 4), (4, 4, 5)]);
    listed(b"\"\\u{}\"", &[(5, 0, 1), (13, 1, 5), (9, 5, 6)]);
}

#[test]
fn refused_pairs() {
    refused(b"1..2", 16, 1, 2, None);
    refused(b"1e+", 17, 3, 3, None);
    refused(b"0b_", 14, 0, 3, None);
    refused(b"\x0b\n", 10, 0, 2, None);
    refused(b"f\"{a // b}\"", 26, 11, 11, Some((2, 3)));
    assert_eq!(lexed(b"f\"{a // b}\"").counts.lexemes, 4);
    refused(b"(]", 24, 1, 2, Some((0, 1)));
    refused(b"\xe2\x82A", 1, 0, 0, None);
}

#[test]
fn escapes() {
    let decoded = |text: &str, end| {
        let mut output = String::new();
        let result = unescape_into(text, span(1, end), Escape::UnicodeDelim, &mut output);
        result
            .map(|()| output)
            .map_err(|error| of_escape(&error).number)
    };
    assert_eq!(decoded("\"\\u{}\"", 5), Err(43));
    assert_eq!(decoded("\"\\u{0000041}\"", 12), Err(44));
    assert_eq!(decoded("\"\\u{000041}\"", 11), Ok("A".to_string()));
}

#[test]
fn values() {
    for (text, expected) in MARKED {
        let case = Case::lexed(text, DOC.0, 0);
        let mut output = vec![0; case.output];
        let found = match case.valued(&mut output).value {
            Ok(Held::Output { start, end }) => Ok(&output[start as usize..end as usize]),
            Ok(Held::Text { .. }) => panic!("An escape is no part of the text."),
            Err(refused) => Err(refused.number),
        };
        assert_eq!(found, expected, "{:?}", text);
    }
}

#[test]
fn packing() {
    let span = Span::new(DocId(2), 1, 3);
    assert_eq!(Words::new(2, 1, 3).low, 844424930131969);
    assert_eq!(Words::new(2, 1, 3).high, 8589934592);
    assert_eq!(words::of(span), (844424930131969, 8589934592));
    assert_eq!(words::to_span(844424930131969, 8589934592), span);
}

#[test]
fn little_memory() {
    let text = b"a (b) ]";
    let refusal = |list, stack| answer(text, DOC, list, stack).refusal.unwrap();
    assert_eq!(refusal(0, 0), Refusal::plain(31, span(0, 1)));
    assert_eq!(refusal(1, 0), Refusal::plain(30, span(2, 3)));
    assert_eq!(refusal(1, 1), Refusal::plain(31, span(2, 3)));
    assert_eq!(refusal(4, 1), Refusal::plain(23, span(6, 7)));
    assert_eq!(answer(text, DOC, 1, 0).counts.steps, 2);
}

#[test]
fn tidying() {
    let (text, expected) = (b"a = f\"{b-1}\";", b"a = f\"{ b-1 }\" ;");
    assert_eq!(respaced(text, &lexed(text).listed), expected);
    assert_eq!(respaced(expected, &lexed(expected).listed), expected);
    let mut output = [0; 17];
    let whole = tidied(text, &trace(text, DOC), 8, 2, &mut output);
    assert_eq!((whole.answer.refusal, whole.written), (None, 16));
    assert_eq!(output, *b"a = f\"{ b-1 }\" ;\0");
    let mut output = [0; 15];
    let short = tidied(text, &trace(text, DOC), 8, 2, &mut output);
    let refusal = Refusal::plain(46, span(12, 13));
    assert_eq!((short.answer.refusal, short.written), (Some(refusal), 14));
    assert_eq!(output, *b"a = f\"{ b-1 }\"\0");
    let full = tidied(text, &trace(text, DOC), 7, 2, &mut output);
    let refusal = Refusal::plain(31, span(12, 13));
    assert_eq!((full.answer.refusal, full.written), (Some(refusal), 0));
}

#[test]
fn gaps() {
    let spaced = |text: &[u8]| respaced(text, &lexed(text).listed);
    assert_eq!(spaced(b" // c\n\nx"), b"// c\n\nx");
    assert_eq!(spaced(b"// c\nx\n"), b"// c\nx");
    assert_eq!(spaced(b"#!\n//"), b"#!\n//");
    assert_eq!(spaced(b"f\"{}\\n{}\""), b"f\"{ }\\n{ }\"");
}

#[test]
fn handing_back() {
    let check = |part| handed(b"abc", b"xy", part);
    let text = |start, end| Held::Text { start, end };
    let output = |start, end| Held::Output { start, end };
    assert_eq!(check(text(1, 3)), Ok(&b"bc"[..]));
    assert_eq!(check(output(2, 2)), Ok(&b""[..]));
    assert_eq!(check(text(3, 2)), Err(Refused::new(3, NOWHERE)));
    assert_eq!(check(text(0, LONGEST + 1)), Err(Refused::new(3, NOWHERE)));
    let outside = Refused::new(40, Words::new(0, 1, 3));
    assert_eq!(check(output(1, 3)), Err(outside));
    assert_eq!(handed_or_empty(b"abc", b"xy", output(1, 3)), b"");
}

#[test]
fn tallies() {
    let tally = |accepted, refused, steps| Tally {
        accepted,
        refused,
        steps,
    };
    let after = |before: Tally, text| before.after(&lexed(text));
    let carried = after(
        after(Tally::default(), b"a = f\"{b-1}\";"),
        b"f\"{a // b}\"",
    );
    assert_eq!(carried, tally(1, 1, 15));
    let last = u64::MAX;
    let near = tally(last - 1, last - 1, last - 3);
    assert_eq!(after(near, b"a b"), tally(last, last - 1, last));
    assert_eq!(after(near, b"a b)"), tally(last - 1, last, last));
    assert_eq!(after(near, b"a b c"), tally(last, last - 1, last));
    let full = tally(last, last, last);
    assert_eq!(after(full, b"a"), full);
    assert_eq!(after(full, b")"), full);
}

// The walker.

fn place(position: usize, depth: usize) -> Place {
    Place { position, depth }
}

fn stack_of(kinds: &[u8]) -> Stack {
    Stack {
        kinds: kinds.to_vec(),
        words: (1..=2 * kinds.len() as u64).collect(),
    }
}

/// One step with nothing kept: the kind or the refusal's number and its span, and where
/// the walker then stands.
fn stepped(text: &[u8], before: Place, stack: &mut Stack) -> (u8, Option<Span>, Place) {
    let Stepped { given, after } = Walked::new(text, DOC).step(Told::default(), before, stack);
    match given {
        Given::Lexeme(lexeme) => (lexeme.code, Some(lexeme.span), after),
        Given::Ended => (0, None, after),
        Given::Refused(refusal) => (refusal.number, Some(refusal.span), after),
    }
}

#[test]
fn walking() {
    let text = b"( x]";
    assert_eq!(opened(text, DOC), None);
    let mut stack = stack_of(&[0]);
    let step = |at, stack: &mut Stack| stepped(text, at, stack);
    assert_eq!(
        step(place(0, 0), &mut stack),
        (33, Some(span(0, 1)), place(1, 1))
    );
    let (low, high) = words::of(span(0, 1));
    assert_eq!((stack.kinds[0], &stack.words[..]), (33, &[low, high][..]));
    assert_eq!(
        step(place(1, 1), &mut stack),
        (0, Some(span(1, 2)), place(2, 1))
    );
    assert_eq!(
        step(place(3, 1), &mut stack),
        (24, Some(span(3, 4)), place(3, 1))
    );
    assert_eq!(
        step(place(4, 1), &mut stack),
        (25, Some(span(4, 4)), place(4, 1))
    );
    assert_eq!(step(place(4, 0), &mut stack), (0, None, place(4, 0)));
    let full = step(place(0, 1), &mut stack);
    assert_eq!(full, (30, Some(span(0, 1)), place(0, 1)));
    let places = |last: usize| walk(&trace(text, DOC), last).len();
    assert_eq!((places(0), places(1)), (1, 4));
}

#[test]
fn walking_from_any_state() {
    let (text, nowhere) = (b"\\\xc3a", Some(span(0, 0)));
    let wrong = |at, stack: &mut Stack| {
        assert_eq!(stepped(text, at, stack), (40, nowhere, at));
    };
    wrong(place(4, 0), &mut stack_of(&[]));
    wrong(place(3, 2), &mut stack_of(&[33]));
    wrong(place(3, 1), &mut stack_of(&[34]));
    let kept = opened(text, DOC);
    assert_eq!(kept, Some(Refusal::plain(1, span(1, 1))));
    let before = place(9, 9);
    let given = Walked::new(text, DOC).step(Told::of(kept), before, &mut stack_of(&[]));
    assert_eq!(given.given, Given::Refused(kept.unwrap()));
    assert_eq!(given.after, before);
    let mut stack = stack_of(&[5]);
    let escape = stepped(text, place(0, 1), &mut stack);
    assert_eq!(escape, (22, Some(span(0, 2)), place(0, 1)));
    let outside = stepped(text, place(1, 0), &mut stack);
    assert_eq!(outside, (11, Some(span(1, 2)), place(1, 0)));
    let given = Walked::new(text, DOC).step(Told::default(), place(3, 1), &mut stack);
    let refusal = Refusal {
        number: 27,
        span: span(3, 3),
        note: Some(words::to_span(1, 2)),
    };
    assert_eq!(given.given, Given::Refused(refusal));
}

/// The walker "keeps a refusal 2 or 1": what it is told has to be one of these, or nothing.
#[test]
fn told_what_a_walker_keeps() {
    let at = |start, end| Words::new(DOC.0, start, end);
    let given = |kept, number, at| {
        let told = Told { kept, number, at };
        Walked::new(b"(", DOC).step(told, place(0, 0), &mut stack_of(&[]))
    };
    let right = |number, start: usize| {
        let refusal = Refusal::plain(number, span(start, start));
        let stepped = given(1, number, at(start as u64, start as u64));
        assert_eq!(stepped.given, Given::Refused(refusal));
    };
    right(2, 0);
    right(1, 0);
    right(1, LONGEST as usize);
    let wrong = |kept, number, at| {
        let stepped = given(kept, number, at);
        let refusal = Refusal::at_start(40, DOC);
        assert_eq!(stepped.given, Given::Refused(refusal));
        assert_eq!(stepped.after, place(0, 0));
    };
    for number in [0, 3, 40, 99, 255] {
        wrong(1, number, at(0, 0));
    }
    for kept in [0, 2, u64::MAX] {
        wrong(kept, 1, at(0, 0));
    }
    for (low, high) in [(1, 0), (0, 1)] {
        wrong(0, 0, Words { low, high });
    }
    wrong(1, 2, NOWHERE);
    wrong(1, 1, at(0, 1));
    wrong(1, 1, at(1, 0));
    wrong(0, 0, at(0, 0));
    wrong(1, 2, at(1, 1));
    wrong(1, 1, Words::new(DOC.0 + 1, 0, 0));
}

/// "The run's length, or one more where a byte follows it."
#[test]
fn runs_of_whitespace() {
    let run = |text: &[u8], at| {
        let run = measured(text, at);
        (run.length, run.lines, run.looked)
    };
    assert_eq!(run(b"", 0), (0, 0, 0));
    assert_eq!(run(b"x ", 0), (0, 0, 1));
    assert_eq!(run(b" x", 0), (1, 0, 2));
    assert_eq!(run(b"  ", 0), (2, 0, 2));
    assert_eq!(run(b"x  ", 1), (2, 0, 2));
    assert_eq!(run(b"\t\n\x0c\r\n \x0b ", 0), (6, 2, 7));
    assert_eq!(run(b"  ", 3), (0, 0, 0));
}
