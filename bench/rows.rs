//! Which rows each table has, and the text of each row.

use crate::texts;

/// The size of most texts.
const USUAL: usize = 4 << 20;

const ALL: [&str; 11] = [
    "move table",
    "long comments",
    "nested format strings",
    "deep indents",
    "2^20 spaces",
    "long strings",
    "ASCII notes",
    "mixed UTF-8 notes",
    "triple-quoted strings",
    "varied notes",
    "varied triple-quoted strings",
];
const RUNS: [&str; 5] = ["1 byte", "2 bytes", "8 bytes", "24 bytes", "80 bytes"];
const CHECKED: [&str; 2] = ["move table", "mixed UTF-8 notes"];
const VALUED: [&str; 6] = [
    "nested format strings",
    "long strings",
    "ASCII notes",
    "mixed UTF-8 notes",
    "triple-quoted strings",
    "varied triple-quoted strings",
];
const WALKED: [&str; 1] = ["move table"];
const SIZES: [&str; 8] = [
    "4 KiB", "16 KiB", "64 KiB", "256 KiB", "1 MiB", "4 MiB", "16 MiB", "64 MiB",
];

pub fn names(table: &str) -> &'static [&'static str] {
    match table {
        "lexing" | "tidy" => &ALL,
        "runs" => &RUNS,
        "check" => &CHECKED,
        "values" => &VALUED,
        "walker" => &WALKED,
        "growth, move table" | "growth, mixed notes" => &SIZES,
        _ => panic!("There is no table {table}."),
    }
}

pub fn text(table: &str, name: &str) -> Vec<u8> {
    match table {
        "runs" => texts::runs(USUAL, length(name)),
        "growth, move table" => texts::move_table(bytes(name)),
        "growth, mixed notes" => texts::mixed_notes(bytes(name)),
        _ => named(name),
    }
}

fn bytes(size: &str) -> usize {
    let (number, unit) = size.split_once(' ').expect("A size has a unit.");
    let number: usize = number.parse().expect("A size has a number.");
    number << if unit == "KiB" { 10 } else { 20 }
}

fn length(run: &str) -> usize {
    let (number, _) = run.split_once(' ').expect("A run has a unit.");
    number.parse().expect("A run has a number.")
}

fn named(name: &str) -> Vec<u8> {
    match name {
        "move table" => texts::move_table(USUAL),
        "long comments" => texts::comments(USUAL),
        "nested format strings" => texts::format_strings(USUAL),
        "deep indents" => texts::indents(USUAL),
        "2^20 spaces" => vec![b' '; 1 << 20],
        "long strings" => texts::strings(USUAL),
        "ASCII notes" => texts::ascii_notes(USUAL),
        "mixed UTF-8 notes" => texts::mixed_notes(USUAL),
        "triple-quoted strings" => texts::triple_quoted(USUAL),
        "varied notes" => texts::varied_notes(USUAL),
        "varied triple-quoted strings" => texts::varied_triple_quoted(USUAL),
        _ => panic!("There is no text {name}."),
    }
}
