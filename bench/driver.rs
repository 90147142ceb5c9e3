//! One driver for both sides: the same text, the same clock, in turn. Prints a
//! line for each time; report.rs makes the tables. A row has a process of its own,
//! so that no row finds the allocator as another left it.
//!   driver rows TABLE...          the rows of the tables
//!   driver SETTING TABLE ROW      the times of a row

mod call;
mod clock;
mod rows;
mod texts;

use std::hint::black_box;

use call::Lent;
use clock::{Clock, Row, Side};
use published::lexer::{lex, Lexeme};
use published::source::DocId;

// Functions are aligned at 16 bytes. The drivers have 0 to 48 bytes here, so that
// each function stands at each place relative to the processor's lines of 64.
std::arch::global_asm!(
    ".section .text.shift,\"axR\",@progbits",
    ".balign 64",
    concat!(".space ", env!("BENCH_SHIFT")),
    ".text",
);

/// The Rust's whole way from bytes to a list.
fn rust_lexes(text: &[u8]) -> Vec<Lexeme> {
    let text = std::str::from_utf8(text).expect("The texts are UTF-8.");
    lex(DocId(1), text).expect("The texts are accepted.")
}

/// The largest block that glibc's allocator learns to keep.
const KEPT: usize = (32 << 20) - (64 << 10);

/// Once a large block was freed, the allocator no longer gives each one up to that
/// size back to the system. A list that it can keep finds it in that state, as in
/// a program that has run for a while: it is the better one for the Rust.
fn settle_allocator(list: Vec<Lexeme>) {
    if list.capacity() * size_of::<Lexeme>() < KEPT {
        black_box(Vec::<u8>::with_capacity(KEPT));
    }
}

/// How fast the same bytes can be copied: nothing that reads them all and writes
/// as many can be faster. It has no other side that takes its place in the caches.
fn copying(clock: &mut Clock, row: &Row, text: &[u8]) {
    let mut copy = vec![0xff; text.len()];
    let side = Side::new("copy", || {
        copy.copy_from_slice(black_box(text));
        black_box(&copy);
    });
    clock.measure(row, &mut [side]);
}

fn lexing(clock: &mut Clock, row: &Row, text: &[u8]) {
    let list = rust_lexes(text);
    let lexemes = list.len();
    settle_allocator(list);
    let mut lent = Lent::touched(lexemes, 0);
    let listed = lent.lex(text).lexemes;
    assert_eq!(listed, lexemes as u64, "Both sides list the same.");
    let mut sides = [
        Side::new("rust", || rust_lexes(black_box(text))),
        Side::new("ours", || lent.lex(black_box(text))),
    ];
    clock.measure(&row.with_lexemes(lexemes), &mut sides);
}

fn checking(clock: &mut Clock, row: &Row, text: &[u8]) {
    let mut sides = [
        Side::new("rust", || std::str::from_utf8(black_box(text)).is_ok()),
        Side::new("ours", || call::is_utf8(black_box(text))),
    ];
    clock.measure(row, &mut sides);
}

/// A call that has no counterpart in the Rust, beside our lexing of the same text.
fn calling(clock: &mut Clock, row: &Row, text: &[u8], call: fn(&mut Lent, &[u8]) -> u64) {
    let lexemes = rust_lexes(text).len();
    let mut lexer = Lent::touched(lexemes, 0);
    let mut lent = Lent::touched(lexemes, 2 * text.len());
    lent.lex(text);
    let mut sides = [
        Side::new("lexing", || lexer.lex(black_box(text))),
        Side::new("ours", || call(&mut lent, black_box(text))),
    ];
    clock.measure(&row.with_lexemes(lexemes), &mut sides);
}

fn measure(setting: &str, table: &str, name: &str) {
    let text = rows::text(table, name);
    let row = &Row::new(setting, table, name, text.len());
    let clock = &mut Clock::new();
    match table {
        "check" => checking(clock, row, &text),
        "tidy" => calling(clock, row, &text, Lent::tidy),
        "values" => calling(clock, row, &text, Lent::values),
        "walker" => calling(clock, row, &text, Lent::walk),
        _ => lexing(clock, row, &text),
    }
    copying(clock, row, &text);
}

fn print_rows(table: &str) {
    for name in rows::names(table) {
        println!("{table}\t{name}");
    }
}

fn main() {
    let words: Vec<String> = std::env::args().skip(1).collect();
    let words: Vec<&str> = words.iter().map(String::as_str).collect();
    match words[..] {
        ["rows", ref tables @ ..] => tables.iter().for_each(|table| print_rows(table)),
        [setting, table, name] => measure(setting, table, name),
        _ => panic!("driver rows TABLE... | driver SETTING TABLE ROW"),
    }
}
