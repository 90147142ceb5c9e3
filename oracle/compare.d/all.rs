//! Every comparison, one after the other, and a table of them.

use std::time::Duration;

use crate::{one, Kind, Share, KINDS};
use judge::arguments::Arguments;
use judge::report::{Ends, Report};

/// Runs all kinds, and answers how many differences there were.
pub fn run(arguments: &Arguments) -> u64 {
    let mut lexed = Lexed::default();
    let mut rows = Vec::new();
    for (place, kind) in KINDS.iter().enumerate() {
        let report = one(kind, &given(place, arguments));
        rows.push(Row::new(kind, report, &mut lexed));
    }
    print_rows(&rows);
    lexed.print();
    print_refusals(&rows);
    let differences = rows.iter().map(|row| row.differences).sum();
    println!("{differences} differences");
    differences
}

/// What a kind is given of N. Each has a seed of its own, so that it has texts of its own.
fn given(place: usize, arguments: &Arguments) -> Arguments {
    Arguments {
        self_test: arguments.self_test,
        count: count(place, arguments.count),
        seed: arguments.seed.wrapping_mul(100) + place as u64 + 1,
        rest: Vec::new(),
    }
}

/// The first kind also has what is left over when N is divided.
fn count(place: usize, all: usize) -> usize {
    let of = |share| (all as u128 * share as u128 / 100) as usize;
    let lexed = |kind: &Kind| match kind.share {
        Share::Lexed(share) => of(share),
        Share::Beside(_) => 0,
    };
    match KINDS[place].share {
        Share::Lexed(_) if place == 0 => all - KINDS[1..].iter().map(lexed).sum::<usize>(),
        Share::Lexed(share) | Share::Beside(share) => of(share),
    }
}

// The table.

/// The texts that the library lexed, also those beside N.
#[derive(Default)]
struct Lexed {
    texts: u64,
    hashes: Vec<u64>,
}

impl Lexed {
    fn add(&mut self, texts: u64, hashes: &[u64]) {
        self.texts += texts;
        self.hashes.extend(hashes);
    }

    fn print(mut self) {
        self.hashes.sort_unstable();
        self.hashes.dedup();
        let (texts, different) = (grouped(self.texts), grouped(self.hashes.len() as u64));
        println!("{texts} texts lexed by the library, {different} of them different");
    }
}

/// What the table says of a kind.
struct Row {
    name: &'static str,
    inputs: &'static str,
    count: u64,
    /// How many different texts, where the inputs are texts.
    different: Option<u64>,
    calls: u64,
    compared: u64,
    differences: u64,
    time: Duration,
    ends: Ends,
}

impl Row {
    fn new(kind: &Kind, report: Report, lexed: &mut Lexed) -> Row {
        let Report {
            inputs,
            calls,
            compared,
            differences,
            ends,
            ..
        } = report;
        let (count, time) = (inputs.count(), inputs.time());
        let hashes = inputs.different();
        if let Share::Lexed(_) = kind.share {
            lexed.add(count, &hashes);
        }
        Row {
            name: kind.name,
            inputs: kind.inputs,
            count,
            different: (!hashes.is_empty()).then_some(hashes.len() as u64),
            calls,
            compared,
            differences,
            time,
            ends,
        }
    }

    fn cells(&self) -> [String; 8] {
        [
            self.name.to_string(),
            grouped(self.count),
            self.inputs.to_string(),
            self.different.map_or("-".to_string(), grouped),
            grouped(self.calls),
            grouped(self.compared),
            grouped(self.differences),
            format!("{:.1}", self.time.as_secs_f64()),
        ]
    }
}

const HEADER: [&str; 8] = [
    "kind",
    "inputs",
    "",
    "different",
    "calls",
    "compared",
    "differences",
    "seconds",
];

fn print_rows(rows: &[Row]) {
    print_cells(&HEADER.map(str::to_string));
    rows.iter().for_each(|row| print_cells(&row.cells()));
    let sum = |number: fn(&Row) -> u64| grouped(rows.iter().map(number).sum());
    let time: Duration = rows.iter().map(|row| row.time).sum();
    print_cells(&[
        "all".to_string(),
        String::new(),
        String::new(),
        String::new(),
        sum(|row| row.calls),
        sum(|row| row.compared),
        sum(|row| row.differences),
        format!("{:.1}", time.as_secs_f64()),
    ]);
}

fn print_cells(cells: &[String; 8]) {
    let [name, count, inputs, numbers @ ..] = cells;
    let numbers: String = numbers.iter().map(|cell| format!(" {cell:>13}")).collect();
    println!("{name:11} {count:>12} {inputs:12}{numbers}");
}

/// Every refusal of document 01.
fn refusals() -> impl Iterator<Item = u8> {
    [1, 2, 3]
        .into_iter()
        .chain(10..=28)
        .chain([30, 31])
        .chain(40..=46)
        .chain([50])
}

/// How many answers had to be each refusal, and of which kinds.
fn print_refusals(rows: &[Row]) {
    println!("{:>7} {:>13}  in", "refusal", "answers");
    for number in refusals() {
        let reached = || rows.iter().filter(|row| row.ends.refused(number) > 0);
        let answers: u64 = reached().map(|row| row.ends.refused(number)).sum();
        let names: Vec<&str> = reached().map(|row| row.name).collect();
        println!("{number:>7} {:>13}  {}", grouped(answers), names.join(" "));
    }
    println!("{NO_TEXT_FOR_2}");
}

const NO_TEXT_FOR_2: &str = "2: no text here is so long. Calls are told such a length of a \
    short one, and walkers that they keep a 2.";

/// With a comma before every three digits.
fn grouped(number: u64) -> String {
    let digits = number.to_string();
    let mut out = String::new();
    for (at, digit) in digits.chars().enumerate() {
        if at > 0 && (digits.len() - at) % 3 == 0 {
            out.push(',');
        }
        out.push(digit);
    }
    out
}
