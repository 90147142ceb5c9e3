//! The tally, as document 01 says it: "The tally counts direct lexing calls accepted and
//! refused, and their steps, one record for all; each number stops at 2^64 − 1."

use crate::reference::Answer;

#[derive(Copy, Clone, Debug, Default, Eq, PartialEq)]
pub struct Tally {
    pub accepted: u64,
    pub refused: u64,
    pub steps: u64,
}

impl Tally {
    /// The tally after one more lexing call. The steps of a refused call count too.
    pub fn after(self, answer: &Answer) -> Tally {
        let refused = answer.refusal.is_some();
        Tally {
            accepted: self.accepted.saturating_add(!refused as u64),
            refused: self.refused.saturating_add(refused as u64),
            steps: self.steps.saturating_add(answer.counts.steps as u64),
        }
    }
}
