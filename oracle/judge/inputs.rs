//! The texts, or what else a comparison is given: how many there were, how many different
//! ones, and how far it is.

use std::hash::{DefaultHasher, Hasher};
use std::time::{Duration, Instant};

/// How often a line on standard error says how far the comparison is.
const SAID_EVERY: Duration = Duration::from_secs(10);

/// The clock is read once in so many inputs.
const CLOCK_ONCE_IN: u64 = 1 << 10;

pub struct Inputs {
    name: &'static str,
    /// How many were asked for; fixed ones may come on top of them.
    asked: usize,
    count: u64,
    /// Of each text.
    hashes: Vec<u64>,
    begun: Instant,
    said: Instant,
}

impl Inputs {
    pub fn new(name: &'static str, asked: usize) -> Inputs {
        let begun = Instant::now();
        Inputs {
            name,
            asked,
            count: 0,
            hashes: Vec::new(),
            begun,
            said: begun,
        }
    }

    /// Counts one text, and tells it from the others.
    pub fn add_text(&mut self, text: &[u8]) {
        let mut hasher = DefaultHasher::new();
        hasher.write(text);
        self.hashes.push(hasher.finish());
        self.add();
    }

    /// Counts one input.
    pub fn add(&mut self) {
        self.count += 1;
        if self.count % CLOCK_ONCE_IN == 0 && self.said.elapsed() > SAID_EVERY {
            self.said = Instant::now();
            let (name, count, asked) = (self.name, self.count, self.asked);
            let seconds = self.time().as_secs();
            eprintln!("{name}: {count} in {seconds} s, {asked} asked for");
        }
    }

    pub fn count(&self) -> u64 {
        self.count
    }

    pub fn time(&self) -> Duration {
        self.begun.elapsed()
    }

    /// The hashes of the texts, each once. Two texts with one hash count as one.
    pub fn different(mut self) -> Vec<u64> {
        self.hashes.sort_unstable();
        self.hashes.dedup();
        self.hashes
    }
}
