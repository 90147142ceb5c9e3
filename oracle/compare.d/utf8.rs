//! The UTF-8 check beside the standard library's.

use crate::calls::rcl_utf8;
use judge::arguments::Arguments;
use judge::generate::random::Random;
use judge::generate::utf8::{bad_sequence, sequence};
use judge::report::Report;

/// `u64::MAX` for UTF-8, else the offset where the first bad sequence begins.
fn found(text: &[u8]) -> u64 {
    // The pointer and the length are those of a live slice.
    unsafe { rcl_utf8(text.as_ptr(), text.len()) }
}

fn expected(text: &[u8]) -> u64 {
    match std::str::from_utf8(text) {
        Ok(_) => u64::MAX,
        Err(error) => error.valid_up_to() as u64,
    }
}

fn compare(report: &mut Report, text: &[u8]) {
    report.inputs.add();
    report.calls += 1;
    report.compare(text, expected(text), found(text));
}

/// All strings of 0 to 3 bytes behind `before`.
fn all_short(report: &mut Report, before: &[u8]) {
    let mut text = before.to_vec();
    for len in 0..=3 {
        text.resize(before.len() + len, 0);
        for number in 0..1u32 << (8 * len) {
            text[before.len()..].copy_from_slice(&number.to_le_bytes()[..len]);
            compare(report, &text);
        }
    }
}

/// All strings of 4 bytes that begin as a sequence of 4 bytes does, or just
/// after.
fn all_four(report: &mut Report) {
    for lead in 0xf0..=0xf5u8 {
        for number in 0..1u32 << 24 {
            let [a, b, c, _] = number.to_le_bytes();
            compare(report, &[lead, a, b, c]);
        }
    }
}

/// Where a check in blocks would begin and end its blocks.
const RUNS: [usize; 12] = [0, 1, 3, 7, 8, 15, 16, 17, 31, 32, 33, 64];

/// A text of ASCII runs and longer sequences; every second one has one sequence
/// damaged.
fn random_text(random: &mut Random) -> Vec<u8> {
    let mut text = Vec::new();
    let pieces = random.between(1, 6);
    let damaged = random.below(2 * pieces);
    for piece in 0..pieces {
        ascii_run(random, &mut text);
        match piece == damaged {
            true => text.extend(bad_sequence(random)),
            false => text.extend(sequence(random)),
        }
    }
    ascii_run(random, &mut text);
    text
}

fn ascii_run(random: &mut Random, text: &mut Vec<u8>) {
    let len = RUNS[random.below(RUNS.len())] + random.below(3);
    text.extend((0..len).map(|_| random.byte() & 0x7f));
}

/// The same text at another address, so that no alignment is favoured.
fn compare_shifted(report: &mut Report, random: &mut Random, text: &[u8]) {
    let shift = random.below(64);
    let mut room = vec![0xffu8; shift];
    room.extend_from_slice(text);
    compare(report, &room[shift..]);
}

pub fn run(arguments: &Arguments) -> Report {
    let mut report = Report::new("utf8", arguments);
    all_short(&mut report, b"");
    all_short(&mut report, &[b'a'; 30]);
    all_four(&mut report);
    let mut random = Random::new(arguments.seed);
    for _ in 0..arguments.count {
        let text = random_text(&mut random);
        compare_shifted(&mut report, &mut random, &text);
    }
    report
}
