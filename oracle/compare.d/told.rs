//! How often a walker was told what no opening gives, and what was wrong about it.

use judge::source::DocId;
use judge::walker::told::Told;

type Test = fn(Told, DocId) -> bool;

/// In this order: words count at the first that fits.
const FAULTS: [(&str, Test); 7] = [
    ("nothing kept, beside other words", |told, _| told.kept == 0),
    ("kept is neither 0 nor 1", |told, _| told.kept > 1),
    ("the number is neither 1 nor 2", |told, _| {
        !matches!(told.number, 1 | 2)
    }),
    ("the id is another", |told, doc| told.at.doc() != doc.0),
    ("the start is after the end", |told, _| told.at.is_bad()),
    ("the span is not empty", |told, _| {
        told.at.start() < told.at.end()
    }),
    ("2 that is not at 0-0", |told, _| told.number == 2),
];

pub struct Faults {
    counts: [u64; FAULTS.len()],
}

impl Faults {
    pub fn new() -> Faults {
        Faults {
            counts: [0; FAULTS.len()],
        }
    }

    /// Words of which the judge says that they are wrong.
    pub fn add(&mut self, told: Told, doc: DocId) {
        let fault = FAULTS.iter().position(|(_, test)| test(told, doc));
        let fault = fault.expect("These words are an opening's.");
        self.counts[fault] += 1;
    }

    pub fn print(&self) {
        let all: u64 = self.counts.iter().sum();
        println!("told what no opening gives: {all}");
        for ((name, _), count) in FAULTS.iter().zip(self.counts) {
            println!("  {name}: {count}");
        }
    }
}
