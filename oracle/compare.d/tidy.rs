//! `rcl_tidy` beside document 01: the answer, the list, the output, what the call may not
//! touch; and, of accepted texts, beside `rcl_tidy` on the re-spaced text.

use crate::calls::Tidied;
use crate::room::{Left, Places, Room};
use crate::subject::{texts, Subject};
use judge::arguments::Arguments;
use judge::generate::any_doc;
use judge::generate::random::Random;
use judge::reference::{within, Answer, AMPLE};
use judge::report::{differing, quoted, Ends, Report};
use judge::respace::{respaced, tidied};
use judge::source::DocId;
use judge::strings::entries;

/// Beside ample memory and just enough, so many are picked for each text.
const PICKED: usize = 3;

/// The example of document 01.
const EXAMPLE: &[u8] = b"a = f\"{b-1}\";";
const EXAMPLE_TIDIED: &[u8] = b"a = f\"{ b-1 }\" ;";

/// The places of list and stack, and the output's length.
#[derive(Copy, Clone, Debug)]
struct Memory {
    places: Places,
    output: usize,
}

/// What must be the same on a text and on its re-spaced text.
#[derive(Debug, Eq, PartialEq)]
struct Outcome {
    number: u64,
    written: u64,
    kinds: Vec<u8>,
    output: Vec<u8>,
}

/// From what the library answered and left.
fn outcome(room: &mut Room, found: Tidied) -> Outcome {
    let kinds = room.list.kinds.inside();
    let listed = kinds.len().min(found.lexed.lexemes as usize);
    Outcome {
        number: found.lexed.refusal.number,
        written: found.written,
        kinds: kinds[..listed].to_vec(),
        output: room.output.inside().to_vec(),
    }
}

struct Comparison {
    report: Report,
    random: Random,
    room: Room,
    ends: Ends,
    pairs: u64,
}

impl Comparison {
    fn example(&mut self) {
        let subject = Subject::new(EXAMPLE.to_vec(), DocId(0));
        let places = Places { list: 8, stack: 2 };
        let output = EXAMPLE_TIDIED.len();
        subject.lend(&mut self.random, &mut self.room);
        self.lend(1, Memory { places, output });
        let found = self.room.tidy(subject.doc);
        let found = (found.lexed.refusal.refused, self.room.output.inside().to_vec());
        let expected = (0, EXAMPLE_TIDIED.to_vec());
        self.report.record(EXAMPLE, differing(&expected, &found));
    }

    /// The same lengths and patterns for the same seed.
    fn lend(&mut self, seed: u64, memory: Memory) {
        let mut random = Random::new(seed);
        self.room.lend_places(&mut random, memory.places);
        self.room.output.fill(random.next(), memory.output);
    }

    /// One text with several memories; where it is accepted, its re-spaced text too.
    fn compare(&mut self, text: Vec<u8>) {
        self.report.inputs.add_text(&text);
        let subject = Subject::new(text, any_doc(&mut self.random));
        let whole = within(&subject.trace, AMPLE, AMPLE);
        let spaced = respaced(&subject.text, &whole.listed);
        let (spaced_len, spaced_doc) = (spaced.len(), any_doc(&mut self.random));
        let accepted = whole.refusal.is_none();
        let spaced = accepted.then(|| Subject::new(spaced, spaced_doc));
        for memory in self.memories(&whole, spaced_len) {
            let seed = self.random.next();
            let first = self.call(&subject, memory, seed);
            if let Some(spaced) = &spaced {
                let second = self.call(spaced, memory, seed);
                self.pair(&subject.text, memory, first, second);
            }
        }
    }

    /// Ample, just enough, and picked ones around that.
    fn memories(&mut self, whole: &Answer, bytes: usize) -> Vec<Memory> {
        let needed = Memory {
            places: Places {
                list: whole.counts.lexemes,
                stack: whole.counts.deepest,
            },
            output: bytes,
        };
        let more = |random: &mut Random, needed: usize| needed + 1 + random.below(9);
        let ample = Memory {
            places: Places {
                list: more(&mut self.random, whole.counts.steps),
                stack: more(&mut self.random, whole.counts.steps),
            },
            output: more(&mut self.random, bytes),
        };
        let mut memories = vec![ample, needed];
        memories.extend((0..PICKED).map(|_| self.picked(needed)));
        memories
    }

    fn picked(&mut self, needed: Memory) -> Memory {
        let less = |random: &mut Random, needed: usize| match random.once_in(2) {
            true => needed.saturating_sub(1),
            false => random.below(needed + 1),
        };
        let enough = needed.places;
        let list = less(&mut self.random, enough.list);
        let stack = less(&mut self.random, enough.stack);
        let output = less(&mut self.random, needed.output);
        let (places, output) = match self.random.below(12) {
            0 => (Places { list, ..enough }, needed.output),
            1 => (Places { stack, ..enough }, needed.output),
            2 => (Places { list, ..enough }, output),
            3 => (Places { stack, ..enough }, output),
            4 => (Places { list, stack }, output),
            _ => (enough, output),
        };
        Memory { places, output }
    }

    /// One call, compared with what document 01 says.
    fn call(&mut self, subject: &Subject, memory: Memory, seed: u64) -> Outcome {
        subject.lend(&mut self.random, &mut self.room);
        self.lend(seed, memory);
        let room = &mut self.room;
        let mut output = room.output.inside().to_vec();
        let Places { list, stack } = memory.places;
        let expected = tidied(&subject.text, &subject.trace, list, stack, &mut output);
        self.ends.add(&expected.answer);
        let found = room.tidy(subject.doc);
        let left = Left {
            text: &subject.text,
            list: &entries(&expected.answer.listed),
            deepest: expected.answer.counts.deepest,
            output: &output,
            ..Left::default()
        };
        self.report.call(
            subject.text.len(),
            || format!("{}, {memory:?}", subject.name()),
            Tidied::of(&expected),
            found,
            || room.wrong(&left),
        );
        outcome(room, found)
    }

    fn pair(&mut self, text: &[u8], memory: Memory, first: Outcome, second: Outcome) {
        self.pairs += 1;
        let name = || format!("{} and re-spaced, {memory:?}", quoted(text));
        let wrong = differing(&first, &second);
        self.report.record_call(text.len(), name, wrong);
    }

    fn finish(mut self) -> Report {
        println!("{} texts", self.report.inputs.count());
        println!("{} calls also on the re-spaced text", self.pairs);
        self.ends.print_lexing();
        self.ends.print_refusals(std::iter::once(46));
        self.report.calls = self.room.calls;
        self.report.ends = self.ends;
        self.report
    }
}

pub fn run(arguments: &Arguments) -> Report {
    let mut comparison = Comparison {
        report: Report::new("tidy", arguments),
        random: Random::new(!arguments.seed),
        room: Room::new(),
        ends: Ends::new(),
        pairs: 0,
    };
    comparison.example();
    texts(arguments).for_each(|text| comparison.compare(text));
    let places = Places { list: 2, stack: 2 };
    for subject in Subject::too_long(&mut comparison.random) {
        comparison.call(&subject, Memory { places, output: 4 }, 1);
    }
    comparison.finish()
}
