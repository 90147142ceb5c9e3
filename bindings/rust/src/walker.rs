//! Lexing step by step.

use std::iter::FusedIterator;

use crate::{raw, Kind, Lexeme, Refusal, Span, Stack};

/// What a step of a walker gives.
#[derive(Copy, Clone, Debug, Eq, PartialEq)]
#[must_use = "the step may have been refused"]
pub enum Step {
    /// The next lexeme; a Space is one here.
    Lexeme(Lexeme),
    /// The text has ended, with nothing left open.
    Ended,
    /// The step was refused, and the walker stands where it stood.
    Refused(Refusal),
}

/// Lexes a text step by step: it borrows the text and keeps its position and how many openers
/// are open, while the openers themselves stand on a stack that the caller lends to each step.
///
/// ```
/// use rcl::{Kind, Stack, Step, Walker};
///
/// let (mut kinds, mut words) = ([0; 4], [0; 8]);
/// let mut stack = Stack::new(&mut kinds, &mut words);
/// let mut walker = Walker::open(1, b"(a");
/// for kind in [Kind::LParen, Kind::Ident] {
///     assert!(matches!(walker.step(&mut stack), Step::Lexeme(lexeme) if lexeme.kind == kind));
/// }
/// assert_eq!((walker.position(), walker.depth()), (2, 1));
/// assert!(matches!(walker.step(&mut stack), Step::Refused(refusal) if refusal.number == 25));
/// ```
#[derive(Clone, Debug)]
pub struct Walker<'a> {
    doc: u32,
    text: &'a [u8],
    position: usize,
    depth: usize,
    kept: raw::Refusal,
}

impl<'a> Walker<'a> {
    /// A walker at the text's start. A refusal 2 or 1 that is met here is kept, and given at
    /// every step.
    ///
    /// ```
    /// let walker = rcl::Walker::open(1, b"a\xff");
    /// assert_eq!(walker.kept().unwrap().number, 1);
    /// assert_eq!(rcl::Walker::open(1, b"a").kept(), None);
    /// ```
    pub fn open(doc: u32, text: &'a [u8]) -> Walker<'a> {
        Walker {
            doc,
            text,
            position: 0,
            depth: 0,
            // SAFETY: pointer and length are those of a slice that is borrowed for the call,
            // and the call only reads it.
            kept: unsafe { raw::rcl_walker_open(doc, text.as_ptr(), text.len()) },
        }
    }

    /// The text that it was opened with.
    pub fn text(&self) -> &'a [u8] {
        self.text
    }

    /// The offset where the next step begins.
    pub fn position(&self) -> usize {
        self.position
    }

    /// How many openers are open.
    pub fn depth(&self) -> usize {
        self.depth
    }

    /// The refusal that opening met, if any.
    pub fn kept(&self) -> Option<Refusal> {
        Refusal::check_noteless(&self.kept).err()
    }

    /// One step. Only an opener is written to the stack, at the place numbered by the depth
    /// before it; a refused step changes nothing, and after the end each step gives the same.
    ///
    /// Lend the same stack to every step, or one with the same first [`depth`](Walker::depth)
    /// places: after a 30 that may be a larger one. With another stack the walker reads what
    /// it finds there, and gives 40 where that is no opener.
    ///
    /// Refusals, in this order: the kept one; 40 where the depth is above the stack's places or
    /// the innermost opener's code is none; 25 to 28 at the end; 10 to 24 of the text; 30 the
    /// stack is full.
    pub fn step(&mut self, stack: &mut Stack<'_>) -> Step {
        // SAFETY: each pointer and the length after it are those of one slice that is
        // borrowed for the call; those that are written are borrowed mutably, so that none
        // overlaps another. Position and depth may be any: outside they are refused.
        let words = unsafe {
            raw::rcl_walker_step(
                self.doc,
                self.text.as_ptr(),
                self.text.len(),
                self.position,
                self.depth,
                self.kept.refused,
                self.kept.number as u8,
                self.kept.low,
                self.kept.high,
                stack.kinds.as_mut_ptr(),
                stack.kinds.len(),
                stack.words.as_mut_ptr(),
                stack.words.len(),
            )
        };
        self.position = words.position as usize;
        self.depth = words.depth as usize;
        given(&words)
    }

    /// The steps from here on as an iterator: the lexemes, Spaces included, and after them the
    /// refusal if there is one. It ends after the refusal or at the text's end.
    ///
    /// ```
    /// # use rcl::{Kind, Stack, Walker};
    /// # let (mut kinds, mut words) = ([0; 4], [0; 8]);
    /// # let mut stack = Stack::new(&mut kinds, &mut words);
    /// let mut walker = Walker::open(1, b"a = $");
    /// let steps: Vec<_> = walker.steps(&mut stack).collect();
    /// assert_eq!(steps.len(), 5);
    /// assert_eq!(steps[1].unwrap().kind, Kind::Space);
    /// assert_eq!(steps[4].unwrap_err().number, 12);
    /// ```
    pub fn steps<'w>(&'w mut self, stack: &'w mut Stack<'_>) -> Steps<'w, 'a> {
        Steps {
            walker: self,
            stack: stack.lend(),
            over: false,
        }
    }
}

fn given(words: &raw::Stepped) -> Step {
    match words.answer {
        0 => Step::Lexeme(Lexeme {
            kind: Kind::from_code(words.number as u8).expect("A lexeme has a code of the 60."),
            span: Span::unpack([words.low, words.high]),
        }),
        1 => Step::Ended,
        _ => {
            let span = [words.low, words.high];
            Step::Refused(Refusal::of(words.number, span, &words.note))
        }
    }
}

/// What [`Walker::steps`] gives.
#[derive(Debug)]
pub struct Steps<'w, 'a> {
    walker: &'w mut Walker<'a>,
    stack: Stack<'w>,
    over: bool,
}

impl Iterator for Steps<'_, '_> {
    type Item = Result<Lexeme, Refusal>;

    fn next(&mut self) -> Option<Result<Lexeme, Refusal>> {
        if self.over {
            return None;
        }
        let step = self.walker.step(&mut self.stack);
        self.over = !matches!(step, Step::Lexeme(_));
        match step {
            Step::Lexeme(lexeme) => Some(Ok(lexeme)),
            Step::Ended => None,
            Step::Refused(refusal) => Some(Err(refusal)),
        }
    }
}

impl FusedIterator for Steps<'_, '_> {}
