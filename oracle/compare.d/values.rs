//! `rcl_value` and `rcl_hand_check` beside document 01, on lists that `rcl_lex` made of
//! accepted texts; and on each text beside its re-spaced text, with equal memory.

use std::fmt::Debug;

use crate::calls::{Answer, Lexed, Valued};
use crate::room::{Left, Places, Room};
use crate::subject::{joined, Subject};
use judge::arguments::Arguments;
use judge::generate::accepted::{Accepted, Supply};
use judge::generate::cases::{memory, Memory};
use judge::generate::parts::part;
use judge::generate::random::Random;
use judge::reference::{self, within, AMPLE};
use judge::report::{differing, quoted, Damage, Ends, Report};
use judge::respace::respaced;
use judge::source::DocId;
use judge::strings::hand::handed;
use judge::strings::parts::parted;
use judge::strings::value::{valued, Held};
use judge::strings::{self, entries, is_quote_open, Entry, Words};

/// At most so many strings of a text are read, and one other place.
const MOST_STRINGS: usize = 8;

/// Each with so many memories.
const MEMORIES: usize = 2;

/// One text in so many is lexed with too little memory.
const LITTLE_ONCE_IN: usize = 8;

/// How often the value was text, was output, or was refused.
pub struct Values {
    in_text: u64,
    in_output: u64,
    pub refused: Ends,
}

impl Values {
    pub fn new() -> Values {
        Values {
            in_text: 0,
            in_output: 0,
            refused: Ends::new(),
        }
    }

    pub fn add(&mut self, value: &strings::Result<Held>) {
        match value {
            Ok(Held::Text { .. }) => self.in_text += 1,
            Ok(Held::Output { .. }) => self.in_output += 1,
            Err(refused) => self.refused.add_number(refused.number),
        }
    }

    pub fn print(&self, numbers: impl Iterator<Item = u8>) {
        println!("values in the text: {}", self.in_text);
        println!("values in the output: {}", self.in_output);
        println!("values refused:");
        self.refused.print_refusals(numbers);
    }
}

/// One of the two texts, what lexing it must give, and what is lent for it.
struct Side<'a> {
    room: &'a mut Room,
    subject: Subject,
    answer: reference::Answer,
    listed: Vec<Entry>,
}

/// What must be the same of two lexings: the refusal's number, kinds and bytes.
type Lexing = (u64, Vec<(u8, Vec<u8>)>);

/// What must be the same of two values: the refusal's number, the kinds of the parts,
/// which array holds the value, its bytes, and the whole output.
#[derive(Debug, Eq, PartialEq)]
struct Value {
    number: u64,
    parts: Vec<u8>,
    in_output: u64,
    bytes: Vec<u8>,
    output: Vec<u8>,
}

impl<'a> Side<'a> {
    fn new(room: &'a mut Room, random: &mut Random, subject: Subject, places: Places) -> Side<'a> {
        subject.lend(random, room);
        let answer = within(&subject.trace, places.list, places.stack);
        Side {
            room,
            subject,
            listed: entries(&answer.listed),
            answer,
        }
    }

    fn text(&self) -> &[u8] {
        &self.subject.text
    }

    /// Parts list and output anew, the same for the same seed.
    fn lend(&mut self, seed: u64, memory: Memory) {
        let mut random = Random::new(seed);
        self.room.parts.fill(&mut random, memory.room);
        self.room.output.fill(random.next(), memory.output);
    }

    /// What a call left that it should not have.
    fn wrong(&self, parts: &[Entry], output: &[u8]) -> Option<String> {
        self.room.wrong(&Left {
            text: self.text(),
            list: &self.listed,
            deepest: self.answer.counts.deepest,
            parts,
            output,
        })
    }

    /// The lexing, from what the library left in the list.
    fn lexing(&mut self, found: Lexed) -> Lexing {
        let text = &self.subject.text;
        let kinds = self.room.list.kinds.inside().iter();
        let words = self.room.list.words.inside().chunks_exact(2);
        let listed = kinds.zip(words).take(found.lexemes as usize);
        let lexeme = |(kind, words): (&u8, &[u64])| {
            let at = Words {
                low: words[0],
                high: words[1],
            };
            let bytes = text.get(at.start() as usize..at.end() as usize);
            (*kind, bytes.unwrap_or(b"outside").to_vec())
        };
        (found.refusal.number, listed.map(lexeme).collect())
    }

    /// The value, from what the library answered and left.
    fn outcome(&mut self, found: Valued) -> Value {
        let part_kinds = self.room.parts.kinds.inside();
        let parts = part_kinds.len().min(found.parts as usize);
        let parts = part_kinds[..parts].to_vec();
        let output = self.room.output.inside().to_vec();
        let holder = match found.in_output {
            0 => self.text(),
            _ => &output,
        };
        let bytes = holder.get(found.start as usize..found.end as usize);
        Value {
            number: found.refusal.number,
            parts,
            in_output: found.in_output,
            bytes: bytes.unwrap_or(b"outside").to_vec(),
            output,
        }
    }
}

// The comparison.

struct Comparison {
    report: Report,
    random: Random,
    strings: u64,
    lexings: Ends,
    values: Values,
    hands: Ends,
}

impl Comparison {
    /// A text and its re-spaced text: both lexed, then read at the same places.
    fn compare(&mut self, subject: Subject, rooms: &mut [Room; 2]) {
        self.report.inputs.add_text(&subject.text);
        let whole = within(&subject.trace, AMPLE, AMPLE);
        let spaced = respaced(&subject.text, &whole.listed);
        let spaced = Subject::new(spaced, DocId(self.random.next() as u32));
        let places = self.places(&whole);
        let [first, second] = rooms;
        let sides = &mut [
            Side::new(first, &mut self.random, subject, places),
            Side::new(second, &mut self.random, spaced, places),
        ];
        self.lex(sides, places);
        for place in self.openers(&sides[0].listed) {
            for _ in 0..MEMORIES {
                self.read(sides, place);
            }
        }
    }

    /// Mostly enough for the text.
    fn places(&mut self, whole: &reference::Answer) -> Places {
        let (list, stack) = (whole.counts.lexemes, whole.counts.deepest);
        if !self.random.once_in(LITTLE_ONCE_IN) {
            return Places {
                list: list + self.random.below(3),
                stack: stack + self.random.below(3),
            };
        }
        let short = self.random.once_in(3);
        Places {
            list: self.random.below(list + 1),
            stack: if short {
                self.random.below(stack + 1)
            } else {
                stack
            },
        }
    }

    fn lex(&mut self, sides: &mut [Side; 2], places: Places) {
        let seed = self.random.next();
        let none = Memory {
            room: 0,
            output: 0,
            position: 0,
        };
        let outcomes = sides.each_mut().map(|side| {
            side.lend(seed, none);
            side.room.lend_places(&mut Random::new(seed), places);
            self.lexings.add(&side.answer);
            let found = side.room.lex(side.subject.doc);
            let expected = Lexed::of(&side.answer);
            let wrong = side.wrong(&[], &[]);
            let call = || format!("lexing, {places:?},");
            self.record(side, call, expected, found, wrong);
            side.lexing(found)
        });
        self.pair(&sides[0], &format!("{places:?}"), outcomes);
    }

    /// The places of some openers, and another place.
    fn openers(&mut self, listed: &[Entry]) -> Vec<usize> {
        let all = listed.iter().enumerate();
        let openers = all.filter(|(_, e)| is_quote_open(e.kind));
        let mut places: Vec<usize> = openers.map(|(place, _)| place).collect();
        while places.len() > MOST_STRINGS {
            places.swap_remove(self.random.below(places.len()));
        }
        self.strings += places.len() as u64;
        places.push(self.random.below(listed.len() + 2));
        places
    }

    /// One place of both lists, with equal memory.
    fn read(&mut self, sides: &mut [Side; 2], place: usize) {
        let (parts, bytes) = needed(&sides[0], place);
        let memory = memory(&mut self.random, parts, bytes);
        let seed = self.random.next();
        let by_hand = part(&mut self.random, sides[0].text().len(), memory.output);
        let outcomes = sides.each_mut().map(|side| {
            side.lend(seed, memory);
            let outcome = self.value(side, place, memory);
            self.hand(side, by_hand);
            outcome
        });
        self.pair(&sides[0], &format!("place {place}, {memory:?}"), outcomes);
    }

    /// The value call and the check of what it answers.
    fn value(&mut self, side: &mut Side, place: usize, memory: Memory) -> Value {
        let mut output = side.room.output.inside().to_vec();
        let (room, position) = (memory.room, memory.position);
        let (text, listed) = (side.text(), &side.listed);
        let expected = valued(text, listed, place, room, &mut output, position);
        self.values.add(&expected.value);
        let found = side.room.value(side.listed.len(), place, position);
        let wrong = side.wrong(&expected.parts, &output);
        let call = || format!("value at place {place}, {memory:?},");
        self.record(side, call, Valued::of(&expected), found, wrong);
        let outcome = side.outcome(found);
        if let Ok(part) = expected.value {
            self.hand(side, part);
            self.handed(side, part, &output, &outcome);
        }
        outcome
    }

    /// The check of a part. Both arrays are only read.
    fn hand(&mut self, side: &mut Side, part: Held) {
        let output = side.room.output.inside().to_vec();
        let expected = Answer::of(handed(side.text(), &output, part).map(|_| 0));
        self.hands.add_number(expected.refusal.number as u8);
        let found = side.room.hand_check(part);
        let kept = side.room.output.wrong_after(output.iter().copied());
        let wrong = side.room.text.wrong(side.text()).or(kept);
        let call = || format!("check of {part:?}, output of {}, text", output.len());
        self.record(side, call, expected, found, wrong);
    }

    /// The bytes that the answer names are those that are handed back.
    fn handed(&mut self, side: &Side, part: Held, output: &[u8], outcome: &Value) {
        let expected = handed(side.text(), output, part).expect("The value's own part.");
        let name = || format!("handed {}, {part:?}", quoted(side.text()));
        let wrong = differing(&expected, &&outcome.bytes[..]);
        self.report.record_call(side.text().len(), name, wrong);
    }

    fn record<T: Damage + PartialEq + Debug>(
        &mut self,
        side: &Side,
        call: impl Fn() -> String,
        expected: T,
        found: T,
        wrong: Option<String>,
    ) {
        let name = || format!("{} of {}", call(), quoted(side.text()));
        let size = side.text().len();
        self.report.call(size, name, expected, found, || wrong);
    }

    /// What the text gave beside what the re-spaced text gave.
    fn pair<T: PartialEq + Debug>(&mut self, side: &Side, about: &str, outcomes: [T; 2]) {
        let [first, second] = outcomes;
        let name = || format!("{} and re-spaced, {about}", quoted(side.text()));
        let wrong = differing(&first, &second);
        self.report.record_call(side.text().len(), name, wrong);
    }

    fn finish(mut self, rooms: &[Room; 2]) -> Report {
        let texts = self.report.inputs.count();
        println!("{texts} accepted texts, {} strings", self.strings);
        let numbers = [31].into_iter().chain(40..=46).chain([50]);
        self.values.print(numbers);
        println!("parts handed back: {}; refused:", self.hands.accepted());
        self.hands.print_refusals([3, 40].into_iter());
        self.report.calls = rooms.iter().map(|room| room.calls).sum();
        self.report.ends = self.lexings;
        self.report.ends.add_all(&self.hands);
        self.report.ends.add_all(&self.values.refused);
        self.report
    }
}

/// How many parts the string has, and how many bytes its value.
fn needed(side: &Side, place: usize) -> (usize, usize) {
    let parts = parted(&side.listed, place, AMPLE).parts.len();
    let mut output = vec![0; side.text().len()];
    let value = valued(side.text(), &side.listed, place, AMPLE, &mut output, 0).value;
    let bytes = match value {
        Ok(Held::Text { start, end }) | Ok(Held::Output { start, end }) => end - start,
        Err(_) => 0,
    };
    (parts, bytes as usize)
}

pub fn run(arguments: &Arguments) -> Report {
    let mut comparison = Comparison {
        report: Report::new("values", arguments),
        random: Random::new(!arguments.seed),
        strings: 0,
        lexings: Ends::new(),
        values: Values::new(),
        hands: Ends::new(),
    };
    let mut supply = Supply::of_strings(arguments.seed);
    let mut rooms = [Room::new(), Room::new()];
    for number in 0..arguments.count + joined(arguments) {
        let doc = DocId(comparison.random.next() as u32);
        let subject = if number < arguments.count {
            let Accepted { text, trace } = supply.next(doc);
            Subject::traced(text, doc, trace)
        } else {
            Subject::new(supply.joined(), doc)
        };
        comparison.compare(subject, &mut rooms);
    }
    comparison.finish(&rooms)
}
