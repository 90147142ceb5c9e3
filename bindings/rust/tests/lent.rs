//! What a call may not touch: the bytes beside the slices that it is lent, and inside them what
//! document 01 leaves as it was, above all after a refusal.

mod common;

use common::{refused, DOC};
use rcl::{lex, lex_tallied, parts, tidy, write_value, List, Stack, Step, Tally, Walker};

/// So many cells on each side of what is lent.
const GUARD: usize = 8;

/// An array with a pattern in it, of which the middle is lent.
struct Guarded<T> {
    cells: Vec<T>,
    before: Vec<T>,
}

impl<T: Copy + PartialEq + std::fmt::Debug> Guarded<T> {
    fn new(len: usize, pattern: impl Fn(usize) -> T) -> Guarded<T> {
        let cells: Vec<T> = (0..len + 2 * GUARD).map(pattern).collect();
        Guarded {
            before: cells.clone(),
            cells,
        }
    }

    fn lent(&mut self) -> &mut [T] {
        let end = self.cells.len() - GUARD;
        &mut self.cells[GUARD..end]
    }

    /// Only the first so many cells of what was lent may have changed.
    fn assert_changed_at_most(&self, cells: usize) {
        assert_eq!(self.cells[..GUARD], self.before[..GUARD]);
        assert_eq!(self.cells[GUARD + cells..], self.before[GUARD + cells..]);
    }
}

/// A list or a stack.
struct Room {
    kinds: Guarded<u8>,
    words: Guarded<u64>,
}

impl Room {
    fn new(places: usize) -> Room {
        Room {
            kinds: Guarded::new(places, |cell| 0x80 | cell as u8),
            words: Guarded::new(2 * places, |cell| 0xfeed_0000 + cell as u64),
        }
    }

    fn list(&mut self) -> List<'_> {
        List::new(self.kinds.lent(), self.words.lent())
    }

    fn stack(&mut self) -> Stack<'_> {
        Stack::new(self.kinds.lent(), self.words.lent())
    }

    fn assert_changed_at_most(&self, places: usize) {
        self.kinds.assert_changed_at_most(places);
        self.words.assert_changed_at_most(2 * places);
    }
}

fn output() -> Guarded<u8> {
    Guarded::new(24, |cell| b'A' + cell as u8 % 26)
}

const TEXTS: [&[u8]; 8] = [
    b"",
    b"\xff",
    b"a ]",
    b"(]",
    b"f\"{a // b}\"",
    b"((((((((",
    b"a = f\"{b-1}\";",
    b"a b c d e f g h i j k l m n o p q r s",
];

#[test]
fn lexing() {
    for (text, places) in TEXTS
        .iter()
        .flat_map(|text| (0..10).map(move |n| (text, n)))
    {
        let (mut list, mut stack) = (Room::new(places), Room::new(places / 2));
        let lexed = lex(DOC, text, &mut list.list(), &mut stack.stack());
        list.assert_changed_at_most(lexed.counts.lexemes);
        stack.assert_changed_at_most(lexed.counts.deepest);
    }
}

#[test]
fn lexing_with_a_tally() {
    for text in TEXTS {
        let (mut list, mut stack) = (Room::new(6), Room::new(3));
        let mut tally = Tally::default();
        let (mut lent, mut openers) = (list.list(), stack.stack());
        let lexed = lex_tallied(&mut tally, DOC, text, &mut lent, &mut openers);
        list.assert_changed_at_most(lexed.counts.lexemes);
        stack.assert_changed_at_most(lexed.counts.deepest);
    }
}

#[test]
fn tidying() {
    for (text, places) in TEXTS
        .iter()
        .flat_map(|text| (0..10).map(move |n| (text, n)))
    {
        let (mut list, mut stack, mut output) = (Room::new(places), Room::new(places), output());
        let (mut lent, mut openers) = (list.list(), stack.stack());
        let tidied = tidy(DOC, text, &mut lent, &mut openers, output.lent());
        let (lexed, written) = (tidied.lexed, tidied.written.len());
        list.assert_changed_at_most(lexed.counts.lexemes);
        stack.assert_changed_at_most(lexed.counts.deepest);
        output.assert_changed_at_most(written);
        if matches!(lexed.answer, Err(refusal) if refusal.number != 46) {
            assert_eq!(written, 0);
        }
    }
}

/// A refused step changes nothing; one that is no opener does not write to the stack.
#[test]
fn walking() {
    let mut stack = Room::new(2);
    let mut walker = Walker::open(DOC, b"a(b]");
    let step = |walker: &mut Walker, stack: &mut Room| walker.step(&mut stack.stack());
    assert!(matches!(step(&mut walker, &mut stack), Step::Lexeme(_)));
    stack.assert_changed_at_most(0);
    assert!(matches!(step(&mut walker, &mut stack), Step::Lexeme(_)));
    stack.assert_changed_at_most(1);
    assert!(matches!(step(&mut walker, &mut stack), Step::Lexeme(_)));
    let (kinds, words) = (stack.kinds.cells.clone(), stack.words.cells.clone());
    assert!(matches!(step(&mut walker, &mut stack), Step::Refused(_)));
    assert_eq!((walker.position(), walker.depth()), (3, 1));
    assert_eq!((kinds, words), (stack.kinds.cells, stack.words.cells));
}

/// A value refused for its escape writes no byte; one that is text does not touch the output.
#[test]
fn values() {
    let text = br#"["ab\N", "ab", "ab\ncd", 1]"#;
    let (mut list, mut stack) = (Room::new(32), Room::new(2));
    let mut lexemes = list.list();
    assert_eq!(
        lex(DOC, text, &mut lexemes, &mut stack.stack()).answer,
        Ok(())
    );
    let cases = [
        (1, Some(42), 2, 0),
        (6, None, 1, 0),
        (10, None, 3, 5),
        (15, Some(50), 0, 0),
    ];
    for (place, number, parts, bytes) in cases {
        let (mut found, mut output) = (Room::new(4), output());
        let mut lent = found.list();
        let answer = write_value(text, lexemes.entries(), place, &mut lent, output.lent(), 0);
        assert_eq!(answer.err().map(|refusal| refusal.number), number);
        assert_eq!(lent.entries().len(), parts);
        found.assert_changed_at_most(parts);
        output.assert_changed_at_most(bytes);
    }
}

#[test]
fn a_full_list_of_parts() {
    let (mut list, mut stack, mut found) = (Room::new(8), Room::new(2), Room::new(2));
    let mut lexemes = list.list();
    let lexed = lex(DOC, br#""a\nb\n""#, &mut lexemes, &mut stack.stack());
    assert_eq!(lexed.answer, Ok(()));
    let answer = parts(lexemes.entries(), 0, &mut found.list());
    assert_eq!(answer, Err(refused(31, 4, 5)));
    found.assert_changed_at_most(2);
}
