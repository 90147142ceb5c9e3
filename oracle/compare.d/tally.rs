//! `rcl_lex_tallied` beside document 01's tally, and its lexing beside the published lexer
//! and `rcl_lex`. One tally is carried through calls from nothing on, one from near 2^64 - 1
//! on; others are made by hand.

use crate::calls::Counted;
use crate::room::{Left, Places, Room};
use crate::subject::{texts, Subject};
use judge::arguments::Arguments;
use judge::generate::random::Random;
use judge::generate::{any_doc, tallies};
use judge::reference::{within, Answer, Counts, AMPLE};
use judge::report::{differing, Ends, Report};
use judge::strings::entries;
use judge::tally::Tally;

/// A tally whose numbers have all stopped is carried through so many more calls.
const CALLS_STOPPED: usize = 50;

const STOPPED: Tally = Tally {
    accepted: u64::MAX,
    refused: u64::MAX,
    steps: u64::MAX,
};

/// Accepted calls, refused ones and steps.
#[derive(Copy, Clone, Debug, Default, Eq, PartialEq)]
struct Sums([u128; 3]);

impl Sums {
    fn of(tally: Tally) -> Sums {
        Sums([tally.accepted, tally.refused, tally.steps].map(u128::from))
    }

    fn plus(self, answer: &Answer) -> Sums {
        let [accepted, refused, steps] = self.0;
        let one = answer.refusal.is_some() as u128;
        Sums([
            accepted + (1 - one),
            refused + one,
            steps + answer.counts.steps as u128,
        ])
    }
}

struct Comparison {
    report: Report,
    random: Random,
    room: Room,
    /// Lent to `rcl_lex`.
    plain: Room,
    ends: Ends,
    /// The tally from nothing on as the library answered it last, and the sums.
    carried: Tally,
    sums: Sums,
    /// The tally from near 2^64 - 1 on, and how many calls it has been carried through
    /// since all its numbers stopped.
    stopping: Tally,
    calls_stopped: usize,
    /// In how many calls each number would have gone beyond 2^64 - 1.
    stops: [u64; 3],
}

impl Comparison {
    fn new(arguments: &Arguments) -> Comparison {
        Comparison {
            report: Report::new("tally", arguments),
            random: Random::new(!arguments.seed),
            room: Room::new(),
            plain: Room::new(),
            ends: Ends::new(),
            carried: Tally::default(),
            sums: Sums::default(),
            stopping: STOPPED,
            calls_stopped: 0,
            stops: [0; 3],
        }
    }

    /// One text: with ample memory, with just enough, and twice with what is picked.
    fn compare(&mut self, text: Vec<u8>) {
        self.report.inputs.add_text(&text);
        let subject = Subject::new(text, any_doc(&mut self.random));
        let needed = within(&subject.trace, AMPLE, AMPLE).counts;
        let ample = Places {
            list: needed.lexemes + 1 + self.random.below(9),
            stack: needed.deepest + 1 + self.random.below(9),
        };
        self.carry(&subject, ample);
        let picked = self.picked(needed);
        self.carry(&subject, picked);
        let just_enough = Places {
            list: needed.lexemes,
            stack: needed.deepest,
        };
        self.carry_near_the_end(&subject, just_enough);
        let picked = self.picked(needed);
        let tally = tallies::tally(&mut self.random, needed.steps);
        self.call(&subject, picked, tally);
    }

    fn picked(&mut self, needed: Counts) -> Places {
        Places {
            list: self.random.below(needed.lexemes + 2),
            stack: self.random.below(needed.deepest + 2),
        }
    }

    fn carry(&mut self, subject: &Subject, places: Places) {
        let answer = within(&subject.trace, places.list, places.stack);
        self.sums = self.sums.plus(&answer);
        self.carried = self.call(subject, places, self.carried);
    }

    fn carry_near_the_end(&mut self, subject: &Subject, places: Places) {
        if self.stopping == STOPPED {
            self.calls_stopped += 1;
        }
        if self.calls_stopped > CALLS_STOPPED {
            self.stopping = tallies::near_the_end(&mut self.random);
            self.calls_stopped = 0;
        }
        self.stopping = self.call(subject, places, self.stopping);
    }

    /// One call, and `rcl_lex` with the same memory. The tally that was answered.
    fn call(&mut self, subject: &Subject, places: Places, before: Tally) -> Tally {
        let answer = within(&subject.trace, places.list, places.stack);
        self.ends.add(&answer);
        self.count_stops(before, &answer);
        let seed = self.random.next();
        for room in [&mut self.room, &mut self.plain] {
            subject.lend(&mut self.random, room);
            room.lend_places(&mut Random::new(seed), places);
        }
        let found = self.room.lex_tallied(before, subject.doc);
        let plain = self.plain.lex(subject.doc);
        let left = Left {
            text: &subject.text,
            list: &entries(&answer.listed),
            deepest: answer.counts.deepest,
            ..Left::default()
        };
        let (size, expected) = (subject.text.len(), before.after(&answer));
        let name = || format!("{}, {places:?}, {before:?}", subject.name());
        let counted = Counted::of(&answer, expected);
        let report = &mut self.report;
        report.call(size, name, counted, found, || self.room.wrong(&left));
        let name = || format!("rcl_lex beside it: {}, {places:?}", subject.name());
        report.call(size, name, found.lexed, plain, || self.plain.wrong(&left));
        found.tally()
    }

    fn count_stops(&mut self, before: Tally, answer: &Answer) {
        let sums = Sums::of(before).plus(answer).0;
        for (stops, sum) in self.stops.iter_mut().zip(sums) {
            *stops += (sum > u64::MAX as u128) as u64;
        }
    }

    fn finish(mut self) -> Report {
        let name = || "the tally carried from nothing on".to_string();
        let wrong = differing(&self.sums, &Sums::of(self.carried));
        self.report.record_call(0, name, wrong);
        println!("{} texts", self.report.inputs.count());
        println!("carried from nothing on: {:?}", self.carried);
        let [accepted, refused, steps] = self.stops;
        println!("stopped at the end: accepted {accepted}, refused {refused}, steps {steps}");
        self.ends.print_lexing();
        self.report.calls = self.room.calls + self.plain.calls;
        self.report.ends = self.ends;
        self.report
    }
}

pub fn run(arguments: &Arguments) -> Report {
    let mut comparison = Comparison::new(arguments);
    texts(arguments).for_each(|text| comparison.compare(text));
    for subject in Subject::too_long(&mut comparison.random) {
        comparison.carry(&subject, Places { list: 2, stack: 2 });
    }
    comparison.finish()
}
