//! `rcl_is_identifier` and `rcl_is_keyword` beside the published functions.

use crate::room::Room;
use judge::arguments::Arguments;
use judge::generate::random::Random;
use judge::report::Report;
use judge::strings::published::{is_identifier, is_keyword};

struct Comparison {
    report: Report,
    random: Random,
    room: Room,
    identifiers: u64,
    keywords: u64,
}

impl Comparison {
    fn compare(&mut self, bytes: &[u8]) {
        self.report.inputs.add();
        self.room.text.put(&mut self.random, bytes);
        let (identifier, keyword) = (is_identifier(bytes), is_keyword(bytes));
        self.identifiers += identifier as u64;
        self.keywords += keyword as u64;
        let found = self.room.is_identifier();
        self.report.compare(bytes, identifier as u64, found as u64);
        let found = self.room.is_keyword();
        self.report.compare(bytes, keyword as u64, found as u64);
    }

    fn finish(mut self) -> Report {
        println!("identifiers: {}", self.identifiers);
        println!("keywords: {}", self.keywords);
        self.report.calls = self.room.calls;
        self.report
    }
}

const KEYWORDS: [&[u8]; 14] = [
    b"and", b"assert", b"else", b"false", b"for", b"if", b"import", b"in", b"let", b"not", b"null",
    b"or", b"trace", b"true",
];

fn all_short(comparison: &mut Comparison) {
    comparison.compare(b"");
    for first in 0..=0xff {
        comparison.compare(&[first]);
        for second in 0..=0xff {
            comparison.compare(&[first, second]);
        }
    }
}

/// Each keyword, and with a byte left out, put in or put in another's place.
fn edited_keywords(comparison: &mut Comparison) {
    for keyword in KEYWORDS {
        comparison.compare(keyword);
        for at in 0..=keyword.len() {
            for byte in 0..=0xff {
                edit(comparison, keyword, at, byte);
            }
        }
    }
}

fn edit(comparison: &mut Comparison, keyword: &[u8], at: usize, byte: u8) {
    let mut bytes = keyword.to_vec();
    bytes.insert(at, byte);
    comparison.compare(&bytes);
    if at == keyword.len() {
        return;
    }
    bytes.remove(at + 1);
    comparison.compare(&bytes);
    bytes.remove(at);
    comparison.compare(&bytes);
}

/// Bytes of identifiers, and their neighbours.
const LETTERS: &[u8] = b"abefilnorstuxyzAFMZ09_-";
const OTHERS: &[u8] = b" .@[`{/:\n\"\x00\x7f\x80\xc3\xa9\xff";

fn random_bytes(random: &mut Random) -> Vec<u8> {
    let mut bytes: Vec<u8> = match random.below(4) {
        0 => KEYWORDS[random.below(KEYWORDS.len())].to_vec(),
        _ => Vec::new(),
    };
    let more = random.below(20);
    bytes.extend((0..more).map(|_| LETTERS[random.below(LETTERS.len())]));
    if random.once_in(4) {
        let at = random.below(bytes.len() + 1);
        bytes.insert(at, OTHERS[random.below(OTHERS.len())]);
    }
    bytes
}

pub fn run(arguments: &Arguments) -> Report {
    let mut comparison = Comparison {
        report: Report::new("identifiers", arguments),
        random: Random::new(!arguments.seed),
        room: Room::new(),
        identifiers: 0,
        keywords: 0,
    };
    all_short(&mut comparison);
    edited_keywords(&mut comparison);
    let mut random = Random::new(arguments.seed);
    for _ in 0..arguments.count {
        let bytes = random_bytes(&mut random);
        comparison.compare(&bytes);
    }
    comparison.finish()
}
