//! Lexing calls, counted.

use crate::{raw, Lexed, List, Stack};

/// How many lexing calls were accepted and refused, and their steps, those of refused calls
/// too. Each number stops at 2^64 - 1. It begins with `Tally::default()`.
#[derive(Copy, Clone, Debug, Default, Eq, PartialEq)]
pub struct Tally {
    /// Calls accepted.
    pub accepted: u64,
    /// Calls refused.
    pub refused: u64,
    /// Steps of all of them.
    pub steps: u64,
}

/// [`lex`](crate::lex), counted in a tally.
///
/// ```
/// use rcl::{lex_tallied, List, Stack, Tally};
///
/// let (mut kinds, mut words) = ([0; 16], [0; 32]);
/// let mut list = List::new(&mut kinds, &mut words);
/// let mut stack = Stack::new(&mut [], &mut []);
///
/// let mut tally = Tally::default();
/// assert!(lex_tallied(&mut tally, 1, b"a b", &mut list, &mut stack).answer.is_ok());
/// assert!(lex_tallied(&mut tally, 1, b"a $", &mut list, &mut stack).answer.is_err());
/// assert_eq!(tally, Tally { accepted: 1, refused: 1, steps: 3 + 2 });
/// ```
pub fn lex_tallied(
    tally: &mut Tally,
    doc: u32,
    text: &[u8],
    list: &mut List<'_>,
    stack: &mut Stack<'_>,
) -> Lexed {
    // SAFETY: as in `lex`: each pointer and the length after it are those of one slice that
    // is borrowed for the call, and those that are written are borrowed mutably.
    let words = unsafe {
        raw::rcl_lex_tallied(
            tally.accepted,
            tally.refused,
            tally.steps,
            doc,
            text.as_ptr(),
            text.len(),
            list.kinds.as_mut_ptr(),
            list.kinds.len(),
            list.words.as_mut_ptr(),
            list.words.len(),
            stack.kinds.as_mut_ptr(),
            stack.kinds.len(),
            stack.words.as_mut_ptr(),
            stack.words.len(),
        )
    };
    *tally = Tally {
        accepted: words.accepted,
        refused: words.refused,
        steps: words.steps,
    };
    list.count = words.lexed.lexemes as usize;
    Lexed::of(&words.lexed)
}
