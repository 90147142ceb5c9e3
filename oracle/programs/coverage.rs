//! Counts which refusals the generated texts reach: with the fixed texts, and
//! by the generated ones alone.
//!   coverage N SEED [LONGEST]

use judge::generate::Texts;
use judge::reference::{trace, Trace};
use judge::source::DocId;

/// How many texts ended with each refusal; place 0 holds the accepted ones.
struct Tally {
    ends: [usize; 64],
    lengths: usize,
    deepest: usize,
}

fn tally(texts: impl Iterator<Item = Vec<u8>>) -> Tally {
    let mut tally = Tally {
        ends: [0; 64],
        lengths: 0,
        deepest: 0,
    };
    for text in texts {
        let trace = trace(&text, DocId(1));
        let number = trace.refusal.map_or(0, |refusal| refusal.number);
        tally.ends[number as usize] += 1;
        tally.lengths += text.len();
        tally.deepest = tally.deepest.max(deepest(&trace));
    }
    tally
}

fn deepest(trace: &Trace) -> usize {
    trace.taken.iter().map(|t| t.depth_after).max().unwrap_or(0)
}

fn print(title: &str, tally: &Tally) {
    let total: usize = tally.ends.iter().sum();
    println!(
        "{title}: {total} texts, {} bytes, deepest {}",
        tally.lengths, tally.deepest
    );
    println!("  accepted {}", tally.ends[0]);
    let expected = std::iter::once(1).chain(10..=28);
    for number in expected {
        println!("  refusal {number} {}", tally.ends[number]);
    }
}

fn main() {
    let mut words = std::env::args().skip(1);
    let mut number = |name: &str, otherwise: Option<usize>| {
        let word = words.next().map(|w| w.parse().expect(name));
        word.or(otherwise).expect(name)
    };
    let count = number("N", None);
    let seed = number("SEED", None) as u64;
    let longest = number("LONGEST", Some(60));
    print("all", &tally(Texts::new(seed, longest).take(count)));
    print(
        "without the fixed texts",
        &tally(Texts::without_fixed(seed, longest).take(count)),
    );
}
