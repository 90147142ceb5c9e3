//! The tidy writer.

use crate::{raw, Lexed, List, Stack};

/// What the tidy writer answers.
#[derive(Copy, Clone, Debug, Eq, PartialEq)]
#[must_use = "the text may have been refused, or the output too small"]
pub struct Tidied<'o> {
    /// As lexing answers, or refusal 46 where the output is full. The counts are those of the
    /// lexing.
    pub lexed: Lexed,
    /// The bytes written, from the output's start; up to the piece that did not fit, if it is
    /// refusal 46.
    pub written: &'o [u8],
}

/// Lexes a text as [`lex`](crate::lex) does, then writes its lexemes to `output` with the gap
/// rule's gaps between them. A gap and the lexeme after it are written whole or not at all.
///
/// Refusals: those of lexing first, and nothing is then written; then 46.
///
/// ```
/// use rcl::{tidy, List, Stack};
///
/// let (mut kinds, mut words) = ([0; 16], [0; 32]);
/// let (mut stack_kinds, mut stack_words) = ([0; 2], [0; 4]);
/// let mut list = List::new(&mut kinds, &mut words);
/// let mut stack = Stack::new(&mut stack_kinds, &mut stack_words);
/// let mut output = [0; 64];
///
/// let tidied = tidy(1, br#"a = f"{b-1}";"#, &mut list, &mut stack, &mut output);
/// assert_eq!(tidied.lexed.answer, Ok(()));
/// assert_eq!(tidied.written, br#"a = f"{ b-1 }" ;"#);
/// ```
pub fn tidy<'o>(
    doc: u32,
    text: &[u8],
    list: &mut List<'_>,
    stack: &mut Stack<'_>,
    output: &'o mut [u8],
) -> Tidied<'o> {
    // SAFETY: as in `lex`: each pointer and the length after it are those of one slice that
    // is borrowed for the call, and those that are written are borrowed mutably.
    let words = unsafe {
        raw::rcl_tidy(
            doc,
            text.as_ptr(),
            text.len(),
            list.kinds.as_mut_ptr(),
            list.kinds.len(),
            list.words.as_mut_ptr(),
            list.words.len(),
            stack.kinds.as_mut_ptr(),
            stack.kinds.len(),
            stack.words.as_mut_ptr(),
            stack.words.len(),
            output.as_mut_ptr(),
            output.len(),
        )
    };
    list.count = words.lexed.lexemes as usize;
    Tidied {
        lexed: Lexed::of(&words.lexed),
        written: &output[..words.written as usize],
    }
}
