//! What every comparison counts and prints: the differences, the first few in full.

use std::fmt::Debug;

use crate::arguments::Arguments;
use crate::inputs::Inputs;
use crate::reference::Answer;

/// More than this many differences say no more.
const SHOWN: u64 = 10;

/// A longer text is not shown whole.
const LONGEST_SHOWN: usize = 10_000;

/// An expected answer that can be made wrong, to see the difference reported.
pub trait Damage {
    fn damage(&mut self);
}

impl Damage for u64 {
    fn damage(&mut self) {
        *self ^= 1;
    }
}

impl Damage for Answer {
    fn damage(&mut self) {
        self.counts.steps += 1;
    }
}

pub struct Report {
    pub inputs: Inputs,
    /// How many calls of the library were made.
    pub calls: u64,
    pub compared: u64,
    pub differences: u64,
    /// How the calls ended whose refusals have a number.
    pub ends: Ends,
    /// The shortest text or call that differed, with its size: the one to look at first.
    smallest: Option<(usize, String)>,
    /// One expected answer is still to be made wrong.
    damage_due: bool,
}

impl Report {
    pub fn new(name: &'static str, arguments: &Arguments) -> Report {
        Report {
            inputs: Inputs::new(name, arguments.count),
            calls: 0,
            compared: 0,
            differences: 0,
            ends: Ends::new(),
            smallest: None,
            damage_due: arguments.self_test,
        }
    }

    pub fn compare<T: Damage + Debug + PartialEq>(&mut self, text: &[u8], expected: T, found: T) {
        self.call(text.len(), || quoted(text), expected, found, || None);
    }

    /// Counts one call: what it answered beside what it had to; where that is right, `left`
    /// says what it left in an array that it should not have.
    pub fn call<T: Damage + Debug + PartialEq>(
        &mut self,
        size: usize,
        name: impl Fn() -> String,
        mut expected: T,
        found: T,
        left: impl FnOnce() -> Option<String>,
    ) {
        self.prepare(&mut expected);
        let wrong = differing(&expected, &found).or_else(left);
        self.record_call(size, name, wrong);
    }

    /// Makes the first expected answer of a self-test wrong. For a comparison
    /// that does more than look whether two values are equal, before `record`.
    pub fn prepare(&mut self, expected: &mut impl Damage) {
        if self.damage_due {
            self.damage_due = false;
            expected.damage();
        }
    }

    /// Counts one comparison; `wrong` says what differed, if anything did.
    pub fn record(&mut self, text: &[u8], wrong: Option<String>) {
        self.record_call(text.len(), || quoted(text), wrong);
    }

    /// The same for a call that is more than a text: its size, and how it is named.
    pub fn record_call(&mut self, size: usize, name: impl Fn() -> String, wrong: Option<String>) {
        self.compared += 1;
        if let Some(wrong) = wrong {
            self.different(size, name(), &wrong);
        }
    }

    fn different(&mut self, size: usize, name: String, wrong: &str) {
        self.differences += 1;
        if self.differences <= SHOWN {
            println!("difference on {name}\n{wrong}");
        }
        if self.smallest.as_ref().is_none_or(|s| size < s.0) {
            self.smallest = Some((size, name));
        }
    }

    /// The last lines.
    pub fn print(&self) {
        if let Some((_, name)) = &self.smallest {
            println!("shortest that differs: {name}");
        }
        println!("{} compared", self.compared);
        println!("{} differences", self.differences);
    }
}

/// A text as messages show it: of a long one the beginning.
pub fn quoted(text: &[u8]) -> String {
    match text.len() {
        0..=LONGEST_SHOWN => format!("`{}`", text.escape_ascii()),
        len => format!("`{}`.. of {len} bytes", text[..100].escape_ascii()),
    }
}

/// What differed, for `Report::record`.
pub fn differing<T: Debug + PartialEq>(expected: &T, found: &T) -> Option<String> {
    (expected != found).then(|| format!("  expected {expected:?}\n  found    {found:?}"))
}

/// How many calls ended with each refusal; place 0 holds the accepted ones.
pub struct Ends {
    counts: [u64; 256],
}

impl Ends {
    pub fn new() -> Ends {
        Ends { counts: [0; 256] }
    }

    pub fn add(&mut self, answer: &Answer) {
        self.add_number(answer.refusal.map_or(0, |r| r.number));
    }

    /// A call that was refused with this number, or accepted: 0.
    pub fn add_number(&mut self, number: u8) {
        self.counts[number as usize] += 1;
    }

    pub fn add_all(&mut self, others: &Ends) {
        self.add_some(others, 0..=u8::MAX);
    }

    /// The others with these numbers.
    pub fn add_some(&mut self, others: &Ends, numbers: impl Iterator<Item = u8>) {
        for number in numbers {
            self.counts[number as usize] += others.counts[number as usize];
        }
    }

    /// How many lexing calls were accepted, and each refusal that lexing can give, also
    /// where it was never reached.
    pub fn print_lexing(&self) {
        println!("accepted: {}", self.accepted());
        self.print_refusals([1, 2].into_iter().chain(10..=28).chain(30..=31));
    }

    /// The same for calls that can give these refusals.
    pub fn print_refusals(&self, numbers: impl Iterator<Item = u8>) {
        for number in numbers {
            println!("refusal {number}: {}", self.refused(number));
        }
    }

    pub fn all(&self) -> u64 {
        self.counts.iter().sum()
    }

    pub fn accepted(&self) -> u64 {
        self.counts[0]
    }

    pub fn refused(&self, number: u8) -> u64 {
        self.counts[number as usize]
    }
}
