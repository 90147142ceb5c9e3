//! `rcl_count_common_leading_spaces` beside the published function, on the parts of
//! strings that the published lexer found.

use crate::calls::Answer;
use crate::room::{Left, Room};
use judge::arguments::Arguments;
use judge::generate::random::Random;
use judge::generate::{chosen, strings as string_texts, Texts};
use judge::report::{quoted, Report};
use judge::strings::case::Case;
use judge::strings::parts::parted;
use judge::strings::{indent, is_quote_open, published, Entry};

/// Texts have about so many bytes at most.
const LONGEST: usize = 300;

/// Every so many texts one comes from the generators of all texts.
const OTHERS_ONCE_IN: usize = 4;

struct Comparison {
    report: Report,
    random: Random,
    room: Room,
    strings: u64,
    /// How many strings have an indent that is not 0.
    indented: u64,
}

impl Comparison {
    /// Each string of the list that the published lexer makes of the text.
    fn compare(&mut self, bytes: &[u8]) {
        self.report.inputs.add_text(bytes);
        let Ok(text) = std::str::from_utf8(bytes) else {
            return;
        };
        let doc = self.random.next() as u32;
        let list = Case::lexed(bytes, doc, 0).list;
        for place in 0..list.len() {
            let parted = parted(&list, place, usize::MAX);
            if is_quote_open(list[place].kind) && parted.closer.is_ok() {
                self.string(text, &parted.parts);
            }
        }
    }

    fn string(&mut self, text: &str, parts: &[Entry]) {
        let count = published::indent(text, parts);
        assert_eq!(
            indent::indent(text.as_bytes(), parts),
            Ok(count),
            "{text:?}"
        );
        self.strings += 1;
        self.indented += (count > 0) as u64;
        let bytes = text.as_bytes();
        self.room.text.put(&mut self.random, bytes);
        self.room.list.put(&mut self.random, parts);
        let said = self.count(parts.len());
        let found = self.room.indent(said);
        let left = Left {
            text: bytes,
            list: parts,
            ..Left::default()
        };
        self.report.call(
            text.len(),
            || format!("{}, parts {parts:?}", quoted(bytes)),
            Answer::of(Ok(count as u64)),
            found,
            || self.room.wrong(&left),
        );
    }

    /// The parts' number, or more, since the list ends with its places.
    fn count(&mut self, parts: usize) -> usize {
        match self.random.below(8) {
            0 => usize::MAX,
            1 => parts + 1,
            _ => parts,
        }
    }

    fn finish(mut self) -> Report {
        println!("{} strings, {} with an indent", self.strings, self.indented);
        self.report.calls = self.room.calls;
        self.report
    }
}

pub fn run(arguments: &Arguments) -> Report {
    let mut comparison = Comparison {
        report: Report::new("indents", arguments),
        random: Random::new(!arguments.seed),
        room: Room::new(),
        strings: 0,
        indented: 0,
    };
    for text in chosen::texts() {
        comparison.compare(text);
    }
    let mut random = Random::new(arguments.seed);
    let mut others = Texts::new(arguments.seed, LONGEST);
    for _ in 0..arguments.count {
        let text = match random.once_in(OTHERS_ONCE_IN) {
            true => others.next().expect("The supply is endless."),
            false => string_texts::text(&mut random, LONGEST),
        };
        comparison.compare(&text);
    }
    comparison.finish()
}
