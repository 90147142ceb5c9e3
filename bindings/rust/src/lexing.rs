//! The UTF-8 check, and lexing a whole text.

use crate::{raw, Lexeme, List, Refusal, Stack};

/// Whether bytes are UTF-8 by RFC 3629; if not, the offset where the first bad sequence
/// begins.
///
/// ```
/// assert_eq!(rcl::utf8("Gr\u{fc}\u{df}e".as_bytes()), Ok(()));
/// assert_eq!(rcl::utf8(b"ab\xffc"), Err(2));
/// ```
pub fn utf8(text: &[u8]) -> Result<(), usize> {
    // SAFETY: pointer and length are those of a slice that is borrowed for the call, and the
    // call only reads it.
    match unsafe { raw::rcl_utf8(text.as_ptr(), text.len()) } {
        u64::MAX => Ok(()),
        offset => Err(offset as usize),
    }
}

/// What was counted, accepted or refused. A refused step counts nothing.
#[derive(Copy, Clone, Debug, Default, Eq, PartialEq)]
pub struct Counts {
    /// The lexemes found, Spaces left out: so many are in the list.
    pub lexemes: usize,
    /// The steps taken, Spaces included.
    pub steps: usize,
    /// The bytes of the lexemes.
    pub kept: usize,
    /// The bytes of the Spaces.
    pub dropped: usize,
    /// The most openers that were open at once.
    pub deepest: usize,
}

/// What lexing answers.
#[derive(Copy, Clone, Debug, Eq, PartialEq)]
#[must_use = "the text may have been refused"]
pub struct Lexed {
    /// Accepted, or the refusal.
    pub answer: Result<(), Refusal>,
    /// What was counted, up to the refusal if there is one.
    pub counts: Counts,
}

impl Lexed {
    pub(crate) fn of(words: &raw::Lexed) -> Lexed {
        Lexed {
            answer: Refusal::check(&words.refusal, &words.note),
            counts: Counts {
                lexemes: words.lexemes as usize,
                steps: words.steps as usize,
                kept: words.kept as usize,
                dropped: words.dropped as usize,
                deepest: words.deepest as usize,
            },
        }
    }
}

/// Lexes a text as the document with the id `doc`, into a lent list with a lent stack.
///
/// Refusals: 2 over 2^48 - 1 bytes, 1 not UTF-8, 10 to 28 of the text, 30 the stack is full,
/// 31 the list is full. Accepted or refused, the list holds the lexemes found, and every
/// place after them is as it was; so is every place of the stack from `deepest` upward.
///
/// ```
/// use rcl::{lex, Kind, List, Stack};
///
/// let (mut kinds, mut words) = ([0; 16], [0; 32]);
/// let (mut stack_kinds, mut stack_words) = ([0; 2], [0; 4]);
/// let mut list = List::new(&mut kinds, &mut words);
/// let mut stack = Stack::new(&mut stack_kinds, &mut stack_words);
///
/// let lexed = lex(1, br#"a = f"{b-1}";"#, &mut list, &mut stack);
/// assert_eq!(lexed.answer, Ok(()));
/// assert_eq!((lexed.counts.lexemes, lexed.counts.deepest), (8, 2));
/// assert_eq!(list.entries().get(4).unwrap().kind, Kind::Ident);
///
/// let refusal = lex(1, b"((()))", &mut list, &mut stack).answer.unwrap_err();
/// assert_eq!((refusal.number, refusal.span.range()), (30, 2..3));
/// ```
pub fn lex(doc: u32, text: &[u8], list: &mut List<'_>, stack: &mut Stack<'_>) -> Lexed {
    // SAFETY: each pointer and the length after it are those of one slice that is borrowed
    // for the call; those that are written are borrowed mutably, so that none overlaps
    // another. The call keeps no pointer.
    let words = unsafe {
        raw::rcl_lex(
            doc,
            text.as_ptr(),
            text.len(),
            list.kinds.as_mut_ptr(),
            list.kinds.len(),
            list.words.as_mut_ptr(),
            list.words.len(),
            stack.kinds.as_mut_ptr(),
            stack.kinds.len(),
            stack.words.as_mut_ptr(),
            stack.words.len(),
        )
    };
    list.count = words.lexemes as usize;
    Lexed::of(&words)
}

/// Lexes a text into memory that this allocates: 34 bytes for each byte of the text while it
/// runs, of which the system need supply only what is written.
///
/// A lexeme has at least one byte, so that neither list nor stack can be full: 30 and 31 are
/// not given.
///
/// ```
/// use rcl::{lex_to_vec, Kind};
///
/// let lexemes = lex_to_vec(1, b"x-->y").unwrap();
/// let kinds: Vec<_> = lexemes.iter().map(|lexeme| lexeme.kind).collect();
/// assert_eq!(kinds, [Kind::Ident, Kind::Minus, Kind::ThinArrow, Kind::Ident]);
/// assert_eq!(lex_to_vec(1, b"1e+").unwrap_err().number, 17);
/// ```
pub fn lex_to_vec(doc: u32, text: &[u8]) -> Result<Vec<Lexeme>, Refusal> {
    let places = text.len();
    let (mut kinds, mut words) = (vec![0; places], vec![0; 2 * places]);
    let (mut stack_kinds, mut stack_words) = (vec![0; places], vec![0; 2 * places]);
    let mut list = List::new(&mut kinds, &mut words);
    let mut stack = Stack::new(&mut stack_kinds, &mut stack_words);
    lex(doc, text, &mut list, &mut stack).answer?;
    Ok(list.entries().iter().collect())
}
