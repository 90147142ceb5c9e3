//! `rcl_lex` beside the published lexer: the answer, the list, and what the call
//! may not touch.

use crate::calls::Lexed;
use crate::room::{Left, Places, Room};
use crate::subject::{joined, Subject};
use judge::arguments::Arguments;
use judge::generate::accepted::Supply;
use judge::generate::random::Random;
use judge::generate::{any_doc, nested, rfc8259, Texts};
use judge::reference::{within, Counts};
use judge::report::{Ends, Report};
use judge::strings::entries;

/// Most texts have at most so many bytes, one in `LONG_ONCE_IN` some kilobytes.
const SHORT: usize = 300;
const LONG: usize = 6000;
const LONG_ONCE_IN: usize = 50;

/// One text in so many nests deeply.
const NESTED_ONCE_IN: usize = 20;
const DEEPEST: usize = 150;

/// Up to so many pairs of a list's and a stack's size are all tried.
const ALL_SIZES: usize = 24;

/// With more, so many pairs are picked.
const PICKED_SIZES: usize = 3;

struct Comparison {
    report: Report,
    random: Random,
    room: Room,
    ends: Ends,
}

impl Comparison {
    /// One text with ample memory and with little.
    fn compare(&mut self, text: Vec<u8>) {
        self.report.inputs.add_text(&text);
        let subject = Subject::new(text, any_doc(&mut self.random));
        let ample = self.ample(&subject);
        let needed = self.call(&subject, ample);
        if (needed.lexemes + 1) * (needed.deepest + 1) <= ALL_SIZES {
            self.compare_all_sizes(&subject, needed);
        } else {
            self.compare_some_sizes(&subject, needed);
        }
    }

    /// More places than there are steps, so that neither array can fill up.
    fn ample(&mut self, subject: &Subject) -> Places {
        let steps = subject.trace.taken.len();
        Places {
            list: steps + self.random.below(20),
            stack: steps + self.random.below(20),
        }
    }

    fn compare_all_sizes(&mut self, subject: &Subject, needed: Counts) {
        for list in 0..=needed.lexemes {
            for stack in 0..=needed.deepest {
                self.call(subject, Places { list, stack });
            }
        }
    }

    fn compare_some_sizes(&mut self, subject: &Subject, needed: Counts) {
        let just_enough = Places {
            list: needed.lexemes,
            stack: needed.deepest,
        };
        self.call(subject, just_enough);
        for _ in 0..PICKED_SIZES {
            let list = self.random.below(needed.lexemes + 2);
            let stack = self.random.below(needed.deepest + 2);
            let places = match self.random.below(3) {
                0 => Places {
                    list,
                    ..just_enough
                },
                1 => Places {
                    stack,
                    ..just_enough
                },
                _ => Places { list, stack },
            };
            self.call(subject, places);
        }
    }

    /// One call with so many places for list and stack, and the counts that are
    /// right for it.
    fn call(&mut self, subject: &Subject, places: Places) -> Counts {
        let answer = within(&subject.trace, places.list, places.stack);
        self.ends.add(&answer);
        let room = &mut self.room;
        subject.lend(&mut self.random, room);
        room.lend_places(&mut self.random, places);
        let found = room.lex(subject.doc);
        let left = Left {
            text: &subject.text,
            list: &entries(&answer.listed),
            deepest: answer.counts.deepest,
            ..Left::default()
        };
        self.report.call(
            subject.text.len(),
            || format!("{}, {places:?}", subject.name()),
            Lexed::of(&answer),
            found,
            || room.wrong(&left),
        );
        answer.counts
    }

    fn finish(mut self) -> Report {
        println!("{} texts", self.report.inputs.count());
        self.ends.print_lexing();
        self.report.calls = self.room.calls;
        self.report.ends = self.ends;
        self.report
    }
}

/// The RFC's examples, then N texts, the generators' in turn, and joined ones.
fn texts(arguments: &Arguments) -> impl Iterator<Item = Vec<u8>> {
    let mut random = Random::new(arguments.seed);
    let mut short = Texts::new(arguments.seed, SHORT);
    let mut long = Texts::without_fixed(random.next(), LONG);
    let generated = (1..=arguments.count).map(move |number| match number {
        _ if number % LONG_ONCE_IN == 0 => long.next(),
        _ if number % NESTED_ONCE_IN == 7 => Some(nested::text(&mut random, DEEPEST, LONG)),
        _ => short.next(),
    });
    let generated = generated.map(|text| text.expect("The supply is endless."));
    let mut supply = Supply::new(arguments.seed);
    let joined = (0..joined(arguments)).map(move |_| supply.any_joined());
    let examples = rfc8259::texts().into_iter();
    examples.chain(generated).chain(joined)
}

pub fn run(arguments: &Arguments) -> Report {
    let mut comparison = Comparison {
        report: Report::new("lex", arguments),
        random: Random::new(!arguments.seed),
        room: Room::new(),
        ends: Ends::new(),
    };
    texts(arguments).for_each(|text| comparison.compare(text));
    for subject in Subject::too_long(&mut comparison.random) {
        comparison.call(&subject, Places { list: 2, stack: 2 });
    }
    comparison.finish()
}
