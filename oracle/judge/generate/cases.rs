//! Calls on strings: lists that the lexer made, damaged copies of those, and lists made
//! by hand; with ample and with little memory.

use super::escapes::{DELIMITED, SINGLE, UNICODE4};
use super::random::Random;
use super::{strings, Texts};
use crate::strings::case::Case;
use crate::strings::parts::parted;
use crate::strings::value::{valued, Held};
use crate::strings::{counted, is_quote_open, Entry, Words, LONGEST};

/// An endless supply of cases whose texts have about `longest` bytes at most.
pub struct Cases {
    random: Random,
    texts: Texts,
    longest: usize,
}

impl Cases {
    pub fn new(seed: u64, longest: usize) -> Cases {
        Cases {
            random: Random::new(seed),
            texts: Texts::without_fixed(!seed, longest),
            longest,
        }
    }

    pub fn next_case(&mut self) -> Case {
        let (text, list) = match self.random.below(10) {
            0..=2 => self.lexed(),
            3 | 4 => self.damaged(),
            5 => self.by_hand(),
            _ => self.mixed(),
        };
        let place = self.place(&list);
        let mut case = Case::ample(&text, list, place);
        self.choose_count(&mut case);
        self.choose_memory(&mut case);
        case
    }

    fn text(&mut self) -> Vec<u8> {
        if self.random.once_in(8) {
            return self.texts.next().expect("The supply is endless.");
        }
        strings::text(&mut self.random, self.longest)
    }

    fn lexed(&mut self) -> (Vec<u8>, Vec<Entry>) {
        let text = self.text();
        let doc = self.doc();
        let case = Case::lexed(&text, doc, 0);
        (text, case.list)
    }

    fn doc(&mut self) -> u32 {
        match self.random.below(4) {
            0 => 0,
            1 => u32::MAX,
            2 => 1,
            _ => self.random.next() as u32,
        }
    }

    fn damaged(&mut self) -> (Vec<u8>, Vec<Entry>) {
        let (text, mut list) = self.lexed();
        for _ in 0..self.random.between(1, 2) {
            self.damage(&text, &mut list);
        }
        (text, list)
    }

    fn damage(&mut self, text: &[u8], list: &mut Vec<Entry>) {
        let at = self.random.below(list.len() + 1);
        let doc = list.first().map_or(7, |first| first.at.doc());
        if at == list.len() || self.random.once_in(8) {
            return list.insert(at, self.entry(text, doc));
        }
        let Entry { kind, at: old } = list[at];
        match self.random.below(9) {
            0 | 1 => list[at].kind = self.kind(),
            2 => list[at].at = self.span(text, doc),
            3 => list[at].at = Words::new(doc, old.end(), old.start()),
            4 => list[at].at = Words::new(doc, old.start(), (old.end() + 1).min(LONGEST)),
            5 => list[at].at = Words::new(doc ^ 1, old.start(), old.end()),
            6 => list[at].at = Words::new(doc, old.end(), old.end()),
            7 => drop(list.remove(at)),
            _ => list.insert(at, Entry { kind, at: old }),
        }
    }

    /// Kinds and spans at random, behind an opener.
    fn by_hand(&mut self) -> (Vec<u8>, Vec<Entry>) {
        let text = self.text();
        let doc = self.doc();
        let opener = Entry {
            kind: self.random.between(5, 8) as u8,
            ..self.entry(&text, doc)
        };
        let count = self.random.below(16);
        let mut list = vec![opener];
        list.extend((0..count).map(|_| self.entry(&text, doc)));
        if self.random.once_in(2) {
            list.push(Entry {
                kind: 9,
                ..self.entry(&text, doc)
            });
        }
        (text, list)
    }

    /// Parts with bytes of their own and holes between them, closed by a quote: a
    /// string that no lexer makes and that mostly has a value.
    fn mixed(&mut self) -> (Vec<u8>, Vec<Entry>) {
        let mut made = Made {
            doc: self.doc(),
            text: Vec::new(),
            list: Vec::new(),
        };
        made.add(self.random.between(5, 8) as u8, b"\"");
        for _ in 0..self.random.below(9) {
            self.part(&mut made);
        }
        made.add(9, b"\"");
        if self.random.once_in(8) {
            self.damage(&made.text, &mut made.list);
        }
        (made.text, made.list)
    }

    fn part(&mut self, made: &mut Made) {
        match self.random.below(40) {
            0..=19 => made.add(10, self.random.pick(&INNER)),
            20..=29 => self.escape(made),
            30..=37 => self.hole(made),
            38 => made.add(14, b"{"),
            _ => made.add(self.kind(), b"z"),
        }
    }

    /// Most have a value, else nearly every string would be refused.
    fn escape(&mut self, made: &mut Made) {
        let most = if self.random.once_in(8) {
            usize::MAX
        } else {
            2
        };
        match self.random.below(3) {
            0 => made.add(11, self.random.pick(&SINGLE[..most.min(SINGLE.len())])),
            1 => made.add(12, self.random.pick(&UNICODE4[..most.min(UNICODE4.len())])),
            _ => made.add(
                13,
                self.random.pick(&DELIMITED[..most.min(DELIMITED.len())]),
            ),
        }
    }

    /// A hole with anything in it, closed by either closer; now and then not closed.
    fn hole(&mut self, made: &mut Made) {
        made.add(14, b"{");
        for _ in 0..self.random.below(4) {
            match self.random.below(40) {
                0 => made.add(self.kind(), b"z"),
                1 => made.add(9, b"\""),
                2..=5 => self.string_in_hole(made),
                _ => made.add(self.random.between(16, 70) as u8, b"z"),
            }
        }
        match self.random.below(40) {
            0 => {}
            1..=4 => made.add(9, b"\""),
            _ => made.add(15, b"}"),
        }
    }

    fn string_in_hole(&mut self, made: &mut Made) {
        made.add(self.random.between(5, 8) as u8, b"\"");
        made.add(self.random.between(10, 13) as u8, b"z");
        made.add(9, b"\"");
    }

    fn entry(&mut self, text: &[u8], doc: u32) -> Entry {
        Entry {
            kind: self.kind(),
            at: self.span(text, doc),
        }
    }

    /// Mostly a kind that strings are made of.
    fn kind(&mut self) -> u8 {
        match self.random.below(8) {
            0 => self.random.byte(),
            1 => self.random.below(60) as u8,
            2..=5 => self.random.between(10, 14) as u8,
            _ => self.random.between(5, 15) as u8,
        }
    }

    /// Mostly a span inside the text; else outside, with its start after its end, of
    /// another document, or any two words.
    fn span(&mut self, text: &[u8], doc: u32) -> Words {
        let len = text.len();
        let one = self.random.below(len + 1) as u64;
        let other = self.random.below(len + 1) as u64;
        let (start, end) = (one.min(other), one.max(other));
        let near = |random: &mut Random| (len + random.below(3)) as u64;
        match self.random.below(40) {
            0 => Words::new(doc, end, start),
            1 => Words::new(doc, start, near(&mut self.random)),
            2 => Words::new(doc, near(&mut self.random), near(&mut self.random)),
            3 => Words::new(doc.wrapping_add(1), start, end),
            4 => Words::new(doc, start, LONGEST),
            5 => Words::new(doc, start, end + 0x1_0000),
            6 => self.any_words(),
            7 => Words::new(doc, start, start),
            _ => self.short_span(doc, start, len as u64),
        }
    }

    fn any_words(&mut self) -> Words {
        Words {
            low: self.random.next(),
            high: self.random.next(),
        }
    }

    fn short_span(&mut self, doc: u32, start: u64, len: u64) -> Words {
        let more = self.random.below(8) as u64;
        Words::new(doc, start, (start + more).min(len))
    }

    /// Mostly the place of an opening quote.
    fn place(&mut self, list: &[Entry]) -> usize {
        let openers = list
            .iter()
            .enumerate()
            .filter(|(_, e)| is_quote_open(e.kind));
        let openers: Vec<usize> = openers.map(|(at, _)| at).collect();
        match self.random.below(48) {
            0 => list.len() + self.random.below(3),
            1 => usize::MAX - self.random.below(2),
            2 => self.random.below(list.len() + 1),
            _ if openers.is_empty() => 0,
            3..=24 => openers[0],
            _ => openers[self.random.below(openers.len())],
        }
    }

    fn choose_count(&mut self, case: &mut Case) {
        case.count = match self.random.below(32) {
            0 => self.random.below(case.count + 1),
            1 => case.count + self.random.below(4),
            2 => usize::MAX - self.random.below(2),
            _ => case.count,
        };
    }

    fn choose_memory(&mut self, case: &mut Case) {
        let (parts, bytes) = needed(case);
        let memory = memory(&mut self.random, parts, bytes);
        (case.room, case.output, case.position) = (memory.room, memory.output, memory.position);
    }
}

/// The places of the parts list, the output's length and the position.
#[derive(Copy, Clone, Debug)]
pub struct Memory {
    pub room: usize,
    pub output: usize,
    pub position: usize,
}

/// For a string of so many parts and bytes: ample, just enough, or too small.
pub fn memory(random: &mut Random, parts: usize, bytes: usize) -> Memory {
    let room = match random.below(8) {
        0 => random.below(parts + 1),
        1 => parts.saturating_sub(1),
        2 | 3 => parts,
        _ => parts + random.below(4),
    };
    let position = random.below(6);
    let fits = position + bytes;
    let (output, position) = match random.below(16) {
        0 | 1 => (fits, position),
        2 | 3 => (fits.saturating_sub(random.between(1, 4)), position),
        4 | 5 => (random.below(fits + 1), position),
        6 => (position, position + random.below(2)),
        7 => (position, position + 1 + random.below(9)),
        8 => (fits, usize::MAX - random.below(6)),
        9 => (fits, LONGEST as usize + random.below(2)),
        10 => (fits, 0),
        _ => (fits + random.below(8), position),
    };
    Memory {
        room,
        output,
        position,
    }
}

/// A text and the list of it, made together.
struct Made {
    doc: u32,
    text: Vec<u8>,
    list: Vec<Entry>,
}

impl Made {
    fn add(&mut self, kind: u8, bytes: &[u8]) {
        let start = self.text.len() as u64;
        self.text.extend_from_slice(bytes);
        let at = Words::new(self.doc, start, self.text.len() as u64);
        self.list.push(Entry { kind, at });
    }
}

/// How many parts the string has, and how many bytes its value, as far as it goes.
fn needed(case: &Case) -> (usize, usize) {
    let list = counted(&case.list, case.count);
    let parted = parted(list, case.place, usize::MAX);
    let mut output = vec![0; bytes_at_most(&parted.parts, case.text.len())];
    let valued = valued(&case.text, list, case.place, usize::MAX, &mut output, 0);
    let bytes = match valued.value {
        Ok(Held::Text { start, end }) | Ok(Held::Output { start, end }) => end - start,
        Err(_) => 0,
    };
    (parted.parts.len(), bytes as usize)
}

/// No part inside the text gives more bytes than it has, but the parts may overlap.
fn bytes_at_most(parts: &[Entry], longest: usize) -> usize {
    let inside = |part: &&Entry| !part.at.is_bad() && part.at.end() <= longest as u64;
    let len = |part: &Entry| (part.at.end() - part.at.start()) as usize;
    parts.iter().filter(inside).map(len).sum()
}

/// Inner parts, also such as the lexer would cut in two.
const INNER: [&[u8]; 16] = [
    b"",
    b"a",
    b"ab",
    b"\n",
    b"\n ",
    b"\n  ",
    b"\n   ",
    b"\n  a",
    b"\n    b",
    b"\nc",
    b" \n",
    b"\n  \n  ",
    b"\n\n",
    b"\n\t ",
    b"\xc3\xa9",
    b"\xff",
];
