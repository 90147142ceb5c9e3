//! Damaged copies of texts that resemble RCL.

use super::exhaustive::unit;
use super::grammar;
use super::random::Random;
use super::utf8::sequence;

/// A text of at most `longest` bytes with one to three damages.
pub fn text(random: &mut Random, longest: usize) -> Vec<u8> {
    let mut text = grammar::text(random, longest);
    for _ in 0..random.between(1, 3) {
        damage(random, &mut text, longest);
    }
    text
}

fn damage(random: &mut Random, text: &mut Vec<u8>, longest: usize) {
    let at = random.below(text.len() + 1);
    match random.below(9) {
        0 => remove(text, at),
        1 | 2 => insert(text, at, unit(random)),
        3 => replace(random, text, at),
        4 => swap(random, text, at),
        5 => text.truncate(at),
        6 => join(text, at, &grammar::text(random, longest)),
        7 => insert(text, at, &[random.byte()]),
        _ => insert(text, at, &sequence(random)),
    }
}

fn remove(text: &mut Vec<u8>, at: usize) {
    if at < text.len() {
        text.remove(at);
    }
}

fn insert(text: &mut Vec<u8>, at: usize, piece: &[u8]) {
    text.splice(at..at, piece.iter().copied());
}

fn replace(random: &mut Random, text: &mut Vec<u8>, at: usize) {
    remove(text, at);
    let piece = unit(random);
    insert(text, at.min(text.len()), piece);
}

fn swap(random: &mut Random, text: &mut [u8], at: usize) {
    if at < text.len() {
        let other = random.below(text.len());
        text.swap(at, other);
    }
}

/// The beginning of one text with another behind it.
fn join(text: &mut Vec<u8>, at: usize, other: &[u8]) {
    text.truncate(at);
    text.extend_from_slice(other);
}
