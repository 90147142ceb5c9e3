//! `rcl_scalar_value` and `rcl_unescape_into` beside the published `unescape_into`, on
//! escapes that the published lexer found; then beside document 01 on calls by hand.

use crate::calls::Answer;
use crate::room::{Left, Room};
use judge::arguments::Arguments;
use judge::generate::escapes::{all_delimited, all_single, all_unicode4, by_hand, ByHand};
use judge::generate::random::Random;
use judge::report::{quoted, Ends, Report};
use judge::strings::case::Case;
use judge::strings::{escapes, is_escape, published, write_piece, Entry, Refused, Result, LONGEST};

/// More bytes than any escape gives.
const LONGEST_PIECE: usize = 4;

struct Comparison {
    report: Report,
    random: Random,
    room: Room,
    ends: Ends,
    found: u64,
}

impl Comparison {
    /// An escape in a string, if the lexer finds one there.
    fn lexed(&mut self, escape: &[u8]) {
        let before = BEFORE[self.random.below(BEFORE.len())];
        let filling = self.random.below(40);
        let filled = [before, &vec![b'a'; filling]].concat();
        let text = [b"\"", &filled[..], escape, b"\\n\""].concat();
        let start = 1 + filled.len() as u64;
        let list = Case::lexed(&text, self.random.next() as u32, 0).list;
        let at_start = |e: &&Entry| e.at.start() == start && is_escape(e.kind);
        let Some(lexeme) = list.iter().find(at_start).copied() else {
            return;
        };
        self.found += 1;
        let text = std::str::from_utf8(&text).expect("The text is UTF-8.");
        let piece = published::unescaped(text, &lexeme);
        self.both(text.as_bytes(), lexeme, piece);
    }

    /// A call by hand, of which only document 01 speaks.
    fn by_hand(&mut self, call: ByHand) {
        let ByHand { text, at, kind } = call;
        let piece = escapes::scalar(&text, at, kind).map(String::from);
        self.both(&text, Entry { kind, at }, piece);
    }

    /// The scalar value, and the bytes with ample and with little room.
    fn both(&mut self, text: &[u8], lexeme: Entry, piece: Result<String>) {
        self.report.inputs.add();
        let scalar = piece
            .as_ref()
            .map(|piece| scalar(piece) as u64)
            .map_err(|e| *e);
        let ours = escapes::scalar(text, lexeme.at, lexeme.kind).map(|c| c as u64);
        assert_eq!(scalar, ours, "Document 01 and the Rust differ on {text:?}.");
        self.scalar(text, lexeme, scalar);
        let len = piece.as_ref().map_or(1, String::len);
        for (output, position) in self.sizes(len) {
            self.unescape(text, lexeme, &piece, output, position);
        }
    }

    /// Outputs and positions: ample, just enough, one too few, past the end.
    fn sizes(&mut self, len: usize) -> [(usize, usize); 6] {
        let random = &mut self.random;
        let position = random.below(12);
        let few = random.below(len);
        let far = match random.below(3) {
            0 => usize::MAX - random.below(LONGEST_PIECE + 2),
            1 => LONGEST as usize - random.below(LONGEST_PIECE + 2),
            _ => position + random.between(1, 9),
        };
        [
            (position + LONGEST_PIECE + random.below(20), position),
            (position + len, position),
            (position + few, position),
            (position, far.max(position + 1)),
            (0, random.below(2)),
            (random.below(8), random.below(8)),
        ]
    }

    fn scalar(&mut self, text: &[u8], lexeme: Entry, expected: Result<u64>) {
        let expected = Answer::of(expected);
        self.ends.add_number(expected.refusal.number as u8);
        let room = &mut self.room;
        room.text.put(&mut self.random, text);
        let found = room.scalar_value(lexeme);
        let name = || format!("scalar of {}", named(text, lexeme));
        let wrong = || room.text.wrong(text);
        self.report.call(text.len(), name, expected, found, wrong);
    }

    fn unescape(
        &mut self,
        text: &[u8],
        lexeme: Entry,
        piece: &Result<String>,
        output: usize,
        position: usize,
    ) {
        let room = &mut self.room;
        room.text.put(&mut self.random, text);
        room.output.fill(self.random.next(), output);
        let mut after = room.output.inside().to_vec();
        let expected = Answer::of(written(piece, lexeme, &mut after, position));
        self.ends.add_number(expected.refusal.number as u8);
        let found = room.unescape_into(lexeme, position);
        let left = Left {
            text,
            output: &after,
            ..Left::default()
        };
        let name = || {
            let call = named(text, lexeme);
            format!("{call}, output of {output}, position {position}")
        };
        let (size, wrong) = (text.len() + output, || room.wrong(&left));
        self.report.call(size, name, expected, found, wrong);
    }

    fn finish(mut self) -> Report {
        println!("{} escapes of the lexer", self.found);
        println!("given: {}", self.ends.accepted());
        self.ends.print_refusals(std::iter::once(3).chain(40..=46));
        self.report.calls = self.room.calls;
        self.report.ends = self.ends;
        self.report
    }
}

/// What may stand before an escape in a string.
const BEFORE: [&[u8]; 6] = [b"", b"", b"x", b"\xc3\xa9", b"\n  ", b"\\\\"];

/// The one character that an escape stands for.
fn scalar(piece: &str) -> char {
    let mut chars = piece.chars();
    match (chars.next(), chars.next()) {
        (Some(scalar), None) => scalar,
        _ => panic!("An escape stands for one character, not for {piece:?}."),
    }
}

/// The piece written to the output, or 46.
fn written(
    piece: &Result<String>,
    lexeme: Entry,
    output: &mut [u8],
    position: usize,
) -> Result<u64> {
    let piece = piece.as_ref().map_err(|refused| *refused)?.as_bytes();
    match write_piece(output, position, piece) {
        true => Ok(piece.len() as u64),
        false => Err(Refused::new(46, lexeme.at)),
    }
}

fn named(text: &[u8], lexeme: Entry) -> String {
    let Entry { kind, at } = lexeme;
    let (text, start, end) = (quoted(text), at.start(), at.end());
    format!("{text}, kind {kind}, span {start}-{end}")
}

pub fn run(arguments: &Arguments) -> Report {
    let mut random = Random::new(arguments.seed);
    let mut comparison = Comparison {
        report: Report::new("escapes", arguments),
        random: Random::new(!arguments.seed),
        room: Room::new(),
        ends: Ends::new(),
        found: 0,
    };
    for escape in all_single() {
        comparison.lexed(&escape);
    }
    for escape in all_delimited() {
        comparison.lexed(&escape);
    }
    for escape in all_unicode4(&mut random) {
        comparison.lexed(&escape);
    }
    for _ in 0..arguments.count {
        comparison.by_hand(by_hand(&mut random));
    }
    comparison.finish()
}
