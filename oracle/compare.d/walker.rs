//! `rcl_walker_open` and `rcl_walker_step` beside the published lexer's own steps, walking
//! texts from their opening; and beside document 01, on states made by hand.

use crate::calls::{Refusal, Stepped};
use crate::room::Room;
use crate::subject::{texts, Subject};
use crate::told::Faults;
use judge::arguments::Arguments;
use judge::generate::any_doc;
use judge::generate::random::Random;
use judge::generate::states::{State, States};
use judge::refusal::Refusal as Judged;
use judge::report::{quoted, Ends, Report};
use judge::walker::told::Keeps;
use judge::walker::{self, opened, walk, Given, Place, Stack, Walked};

/// Each walk goes on for so many steps after the one that ended it.
const PAST_THE_END: usize = 3;

/// So many states by hand for each text, and for each length over the limit.
const STATES: usize = 4;
const STATES_TOO_LONG: usize = 200;

// The stack.

/// Lends a stack with a pattern in it, and answers what it holds.
fn lend_pattern(room: &mut Room, random: &mut Random, places: usize) -> Stack {
    room.stack.fill(random, places);
    Stack {
        kinds: room.stack.kinds.inside().to_vec(),
        words: room.stack.words.inside().to_vec(),
    }
}

/// Lends a stack that holds this.
fn lend_stack(room: &mut Room, random: &mut Random, stack: &Stack) {
    let lent = &mut room.stack;
    lent.kinds.fill(random.next(), stack.kinds.len());
    lent.words.fill(random.next(), stack.words.len());
    lent.kinds.inside().copy_from_slice(&stack.kinds);
    lent.words.inside().copy_from_slice(&stack.words);
}

/// What is wrong unless both arrays hold this whole, between their guards.
fn wrong_stack(room: &Room, stack: &Stack) -> Option<String> {
    let kinds = stack.kinds.iter().copied();
    let words = stack.words.iter().copied();
    let wrong = room.stack.kinds.wrong_after(kinds);
    wrong.or_else(|| room.stack.words.wrong_after(words))
}

// The comparison.

/// How often each answer came.
struct Answers {
    lexemes: u64,
    ended: u64,
    /// Refusals given because they were kept.
    kept: Ends,
    refused: Ends,
    /// Among the refused: what they were told is nothing that a walker can keep.
    told: Faults,
}

impl Answers {
    fn new() -> Answers {
        Answers {
            lexemes: 0,
            ended: 0,
            kept: Ends::new(),
            refused: Ends::new(),
            told: Faults::new(),
        }
    }

    fn add(&mut self, state: &State, given: Given) {
        let keeps = state.told.keeps(state.doc);
        if keeps == Keeps::Wrong {
            self.told.add(state.told, state.doc);
        }
        match (given, keeps) {
            (Given::Lexeme(_), _) => self.lexemes += 1,
            (Given::Ended, _) => self.ended += 1,
            (Given::Refused(_), Keeps::Refusal(kept)) => self.kept.add_number(kept.number),
            (Given::Refused(refusal), _) => self.refused.add_number(refusal.number),
        }
    }

    fn print(&self) {
        println!("lexemes: {}", self.lexemes);
        println!("ended: {}", self.ended);
        println!("kept refusals given: {}", self.kept.all());
        self.kept.print_refusals(1..=2);
        println!("others refused: {}", self.refused.all());
        let numbers = [2].into_iter().chain(10..=28).chain([30, 40]);
        self.refused.print_refusals(numbers);
        self.told.print();
    }
}

struct Comparison {
    report: Report,
    random: Random,
    room: Room,
    openings: Ends,
    answers: Answers,
    walks: u64,
    states: u64,
}

impl Comparison {
    /// One text: its opening, and walks with an ample stack, one that just suffices, and a
    /// smaller one.
    fn compare_text(&mut self, text: Vec<u8>) {
        self.report.inputs.add_text(&text);
        let doc = any_doc(&mut self.random);
        self.room.text.put(&mut self.random, &text);
        let subject = Subject::new(text, doc);
        self.compare_opening(&subject, opened(&subject.text, doc));
        let depths = subject.trace.taken.iter().map(|taken| taken.depth_after);
        let deepest = depths.max().unwrap_or(0);
        let ample = deepest + self.random.between(1, 5);
        self.compare_walk(&subject, ample);
        self.compare_walk(&subject, deepest);
        if deepest > 0 {
            let small = self.random.below(deepest);
            self.compare_walk(&subject, small);
        }
        let wrong = self.room.text.wrong(&subject.text);
        self.report.record(&subject.text, wrong);
    }

    fn compare_opening(&mut self, subject: &Subject, kept: Option<Judged>) {
        let expected = Refusal::of(kept);
        self.openings.add_number(expected.number as u8);
        let found = self.room.open(subject.doc);
        self.report.compare(&subject.text, expected, found);
    }

    /// A walk with so many places. It stops at the first step that differs.
    fn compare_walk(&mut self, subject: &Subject, places: usize) {
        self.walks += 1;
        let Subject {
            text, doc, trace, ..
        } = subject;
        let answers = walk(trace, places);
        let last = answers.len() - 1;
        let walked = Walked::new(text, *doc);
        let stack = lend_pattern(&mut self.room, &mut self.random, places);
        let start = Place::default();
        let mut state = State::walking(text, *doc, opened(text, *doc), start, stack);
        for number in 0..=last + PAST_THE_END {
            let published = answers[number.min(last)];
            let before = state.before;
            let answer = walked.step(state.told, before, &mut state.stack);
            assert_eq!(answer, published, "Step {number} of a walk: {state:?}");
            if !self.compare_step(&state, &answer) {
                return;
            }
            state.before = answer.after;
        }
    }

    fn compare_states(&mut self, states: &mut States) {
        for _ in 0..STATES {
            self.compare_state(&mut states.next_state());
        }
    }

    fn compare_state(&mut self, state: &mut State) {
        self.states += 1;
        self.room.text.put(&mut self.random, &state.text);
        lend_stack(&mut self.room, &mut self.random, &state.stack);
        let answer = answer_by_hand(state);
        self.compare_step(state, &answer);
        let wrong = self.room.text.wrong(&state.text);
        self.report.record(&state.text, wrong);
    }

    /// Openings with a length over the limit, and steps from any state with it.
    fn compare_too_long(&mut self, states: &mut States) {
        for subject in Subject::too_long(&mut self.random) {
            subject.lend(&mut self.random, &mut self.room);
            self.compare_opening(&subject, subject.trace.refusal);
            for _ in 0..STATES_TOO_LONG {
                let state = State {
                    text: subject.text.clone(),
                    ..states.next_state()
                };
                lend_stack(&mut self.room, &mut self.random, &state.stack);
                let answer = walker::too_long(state.doc, state.told, state.before);
                self.compare_step(&state, &answer);
            }
        }
    }

    /// One call, with the text and the stack before it in the room. The state's stack is
    /// that after the step. Whether all was right.
    fn compare_step(&mut self, state: &State, answer: &walker::Stepped) -> bool {
        self.answers.add(state, answer.given);
        let found = self.room.step(state);
        let differences = self.report.differences;
        self.report.call(
            state.text.len(),
            || named(state),
            Stepped::of(answer),
            found,
            || wrong_stack(&self.room, &state.stack),
        );
        self.report.differences == differences
    }

    fn finish(mut self) -> Report {
        let texts = self.report.inputs.count();
        println!("{texts} texts, {} walks", self.walks);
        println!("{} states by hand", self.states);
        self.answers.print();
        self.report.calls = self.room.calls;
        self.report.ends = self.openings;
        self.report.ends.add_all(&self.answers.refused);
        self.report.ends.add_all(&self.answers.kept);
        self.report
    }
}

/// The answer to a state by hand, whose stack becomes that after the step. Where the text is
/// UTF-8, what the published lexer says of it and what document 01 says of bytes over 127
/// must agree.
fn answer_by_hand(state: &mut State) -> walker::Stepped {
    let mut again = state.stack.clone();
    let told = state.told;
    let walked = Walked::new(&state.text, state.doc);
    let answer = walked.step(told, state.before, &mut state.stack);
    let walked = Walked::without_utf8(&state.text, state.doc);
    let other = walked.step(told, state.before, &mut again);
    assert_eq!(answer, other, "With and without UTF-8: {state:?}");
    assert_eq!(state.stack, again, "With and without UTF-8: {state:?}");
    answer
}

fn named(state: &State) -> String {
    let (id, at) = (state.doc.0, state.before);
    let (text, told, stack) = (quoted(&state.text), state.told, &state.stack);
    format!("{text}, id {id}, {at:?}, {told:?}, after it {stack:?}")
}

pub fn run(arguments: &Arguments) -> Report {
    let mut comparison = Comparison {
        report: Report::new("walker", arguments),
        random: Random::new(!arguments.seed),
        room: Room::new(),
        openings: Ends::new(),
        answers: Answers::new(),
        walks: 0,
        states: 0,
    };
    let mut states = States::new(arguments.seed);
    for text in texts(arguments) {
        comparison.compare_text(text);
        comparison.compare_states(&mut states);
    }
    comparison.compare_too_long(&mut states);
    comparison.finish()
}
