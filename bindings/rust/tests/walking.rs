//! A walk's steps are the steps of lexing.

mod common;

use common::{lexed, refused, short_texts, span, Arrays, AMPLE, DOC, PROTOCOL};
use rcl::{lex_to_vec, Counts, Kind, Lexeme, Refusal, Step, Walker};

/// What a walk gives until its first step that is no lexeme, counted as lexing counts.
struct Walked {
    lexemes: Vec<Lexeme>,
    answer: Result<(), Refusal>,
    counts: Counts,
}

fn add(counts: &mut Counts, lexeme: Lexeme, depth: usize) {
    let len = lexeme.span.range().len();
    counts.steps += 1;
    counts.deepest = counts.deepest.max(depth);
    if lexeme.kind == Kind::Space {
        counts.dropped += len;
    } else {
        counts.kept += len;
        counts.lexemes += 1;
    }
}

fn walked(text: &[u8]) -> Walked {
    let mut arrays = Arrays::new(AMPLE);
    let mut stack = arrays.stack();
    let mut walker = Walker::open(DOC, text);
    let (mut lexemes, mut counts) = (Vec::new(), Counts::default());
    loop {
        let before = walker.position();
        let answer = match walker.step(&mut stack) {
            Step::Lexeme(lexeme) => {
                assert_eq!(lexeme.span, span(before, walker.position()));
                add(&mut counts, lexeme, walker.depth());
                lexemes.push(lexeme);
                continue;
            }
            Step::Ended => Ok(()),
            Step::Refused(refusal) => Err(refusal),
        };
        assert_eq!(walker.position(), before);
        lexemes.retain(|lexeme| lexeme.kind != Kind::Space);
        return Walked {
            lexemes,
            answer,
            counts,
        };
    }
}

fn compare(text: &[u8]) {
    let (walked, (lexed, lexemes)) = (walked(text), lexed(text));
    assert_eq!(walked.answer, lexed.answer, "{text:?}");
    assert_eq!(walked.counts, lexed.counts, "{text:?}");
    assert_eq!(walked.lexemes, lexemes, "{text:?}");
    assert_eq!(lex_to_vec(DOC, text), lexed.answer.map(|()| lexemes));
}

#[test]
fn a_protocol() {
    compare(PROTOCOL);
}

#[test]
fn a_protocol_cut_short() {
    (0..PROTOCOL.len()).for_each(|len| compare(&PROTOCOL[..len]));
}

#[test]
fn short_texts_all() {
    short_texts().iter().for_each(|text| compare(text));
}

#[test]
fn the_iterator_ends_once() {
    let mut arrays = Arrays::new(AMPLE);
    let mut stack = arrays.stack();
    let mut walker = Walker::open(DOC, b"a ]");
    let mut steps = walker.steps(&mut stack);
    let first = steps.by_ref().take(2).map(|step| step.unwrap().kind);
    assert!(first.eq([Kind::Ident, Kind::Space]));
    assert_eq!(steps.next(), Some(Err(refused(23, 2, 3))));
    assert_eq!(steps.next(), None);
    assert_eq!(walker.position(), 2);

    let mut walker = Walker::open(DOC, b"a");
    let mut steps = walker.steps(&mut stack);
    assert!(matches!(steps.next(), Some(Ok(_))));
    assert_eq!((steps.next(), steps.next()), (None, None));
}

#[test]
fn after_the_end_each_step_gives_the_same() {
    let mut arrays = Arrays::new(AMPLE);
    let mut stack = arrays.stack();
    let mut open = Walker::open(DOC, b"(");
    assert!(matches!(open.step(&mut stack), Step::Lexeme(_)));
    let note = Some(span(0, 1));
    for _ in 0..3 {
        let expected = Refusal {
            note,
            ..refused(25, 1, 1)
        };
        assert_eq!(open.step(&mut stack), Step::Refused(expected));
    }
    let mut empty = Walker::open(DOC, b"");
    assert_eq!(
        [empty.step(&mut stack), empty.step(&mut stack)],
        [Step::Ended; 2]
    );
}

#[test]
fn a_kept_refusal_is_given_at_every_step() {
    let mut arrays = Arrays::new(AMPLE);
    let mut stack = arrays.stack();
    let mut walker = Walker::open(DOC, b"ab \xff");
    assert_eq!(walker.kept(), Some(refused(1, 3, 3)));
    for _ in 0..3 {
        assert_eq!(walker.step(&mut stack), Step::Refused(refused(1, 3, 3)));
        assert_eq!((walker.position(), walker.depth()), (0, 0));
    }
}

/// After a 30 a larger stack with the same openers goes on.
#[test]
fn a_larger_stack_goes_on() {
    let (mut little, mut larger) = (Arrays::new(1), Arrays::new(2));
    let mut walker = Walker::open(DOC, b"([");
    assert!(matches!(walker.step(&mut little.stack()), Step::Lexeme(_)));
    let full = walker.step(&mut little.stack());
    assert_eq!(full, Step::Refused(refused(30, 1, 2)));
    larger.kinds[..1].copy_from_slice(&little.kinds);
    larger.words[..2].copy_from_slice(&little.words);
    assert!(matches!(walker.step(&mut larger.stack()), Step::Lexeme(_)));
    assert_eq!((walker.position(), walker.depth()), (2, 2));
}

#[test]
fn another_stack_is_refused() {
    let (mut arrays, mut none, mut other) = (Arrays::new(4), Arrays::new(0), Arrays::new(4));
    let mut walker = Walker::open(DOC, b"(a)");
    assert!(matches!(walker.step(&mut arrays.stack()), Step::Lexeme(_)));
    assert_eq!(
        walker.step(&mut none.stack()),
        Step::Refused(refused(40, 0, 0))
    );
    assert_eq!(
        walker.step(&mut other.stack()),
        Step::Refused(refused(40, 0, 0))
    );
    assert!(matches!(walker.step(&mut arrays.stack()), Step::Lexeme(_)));
}

#[test]
fn allocated_memory_suffices() {
    let deep = [vec![b'('; 5000], vec![b')'; 5000]].concat();
    assert_eq!(lex_to_vec(DOC, &deep).unwrap().len(), 10_000);
    let open = lex_to_vec(DOC, &deep[..5000]).unwrap_err();
    assert_eq!((open.number, open.note), (25, Some(span(4999, 5000))));
}
