//! Tallies made by hand: many so near to 2^64 - 1 that the next call reaches it or would go
//! beyond it.

use super::random::Random;
use crate::tally::Tally;

/// A tally before a call of so many steps.
pub fn tally(random: &mut Random, steps: usize) -> Tally {
    Tally {
        accepted: number(random, 1),
        refused: number(random, 1),
        steps: number(random, steps as u64),
    }
}

/// A number to which so much may be added.
fn number(random: &mut Random, added: u64) -> u64 {
    let few = random.below(added as usize + 3) as u64;
    match random.below(8) {
        0 => few,
        1 => u64::MAX,
        2 => u64::MAX - added,
        3 => (u64::MAX - added).saturating_add(1),
        4 => u64::MAX - few,
        5 => (1 << 63) - few,
        6 => (1 << 32) - few,
        _ => random.next(),
    }
}

/// A tally that some hundreds of calls fill.
pub fn near_the_end(random: &mut Random) -> Tally {
    Tally {
        accepted: u64::MAX - random.below(300) as u64,
        refused: u64::MAX - random.below(300) as u64,
        steps: u64::MAX - random.below(6000) as u64,
    }
}
