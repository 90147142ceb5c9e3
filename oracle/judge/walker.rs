//! The walker, as document 01 says it: what opening keeps, and one step from any position
//! and depth with any stack and whatever it is told that was kept, also such as no walk
//! reaches. The lexeme at a position is the published lexer's.

pub mod told;

use std::borrow::Cow;

use crate::codes;
use crate::lexer::steps;
use crate::reference::{checked, Listed, Trace, LONGEST};
use crate::refusal::{of_lexing, Refusal};
use crate::source::{words, DocId, Span};
use told::{Keeps, Told};

/// Where a walker stands.
#[derive(Copy, Clone, Debug, Default, Eq, PartialEq)]
pub struct Place {
    pub position: usize,
    pub depth: usize,
}

#[derive(Copy, Clone, Debug, Eq, PartialEq)]
pub enum Given {
    /// A Space too.
    Lexeme(Listed),
    Ended,
    Refused(Refusal),
}

/// What a step answers, and where the walker stands after it.
#[derive(Copy, Clone, Debug, Eq, PartialEq)]
pub struct Stepped {
    pub given: Given,
    pub after: Place,
}

/// The refusal 2 or 1 that a walker keeps from its opening.
pub fn opened(text: &[u8], doc: DocId) -> Option<Refusal> {
    checked(text, doc).err()
}

/// A step in a text over the limit: the kept refusal, else 2.
pub fn too_long(doc: DocId, told: Told, before: Place) -> Stepped {
    let refusal = match told.keeps(doc) {
        Keeps::Refusal(kept) => kept,
        Keeps::Nothing | Keeps::Wrong => Refusal::at_start(2, doc),
    };
    Stepped {
        given: Given::Refused(refusal),
        after: before,
    }
}

// The stack.

/// The two arrays of a stack of openers, with anything in them.
#[derive(Clone, Debug, Eq, PartialEq)]
pub struct Stack {
    pub kinds: Vec<u8>,
    pub words: Vec<u64>,
}

impl Stack {
    pub fn places(&self) -> usize {
        self.kinds.len().min(self.words.len() / 2)
    }

    fn opener(&self, place: usize) -> (u8, Span) {
        let span = words::to_span(self.words[2 * place], self.words[2 * place + 1]);
        (self.kinds[place], span)
    }

    fn put(&mut self, place: usize, opener: Listed) {
        let (low, high) = words::of(opener.span);
        self.kinds[place] = opener.code;
        self.words[2 * place..2 * place + 2].copy_from_slice(&[low, high]);
    }
}

// One step.

/// A text that is walked, and the text that the published lexer is asked about in its
/// stead.
pub struct Walked<'a> {
    text: &'a [u8],
    doc: DocId,
    asked: Cow<'a, str>,
}

/// Stands for a byte over 127 where the text is not UTF-8: like one, it belongs to no
/// lexeme of several bytes but strings, comments and shebangs.
const STANDING_IN: u8 = b'@';

impl<'a> Walked<'a> {
    pub fn new(text: &'a [u8], doc: DocId) -> Walked<'a> {
        match std::str::from_utf8(text) {
            Ok(utf8) => Walked {
                text,
                doc,
                asked: Cow::Borrowed(utf8),
            },
            Err(_) => Walked::without_utf8(text, doc),
        }
    }

    /// The same where a step may not count on UTF-8, which is checked at opening alone:
    /// what document 01 says of bytes over 127 is then answered here.
    pub fn without_utf8(text: &'a [u8], doc: DocId) -> Walked<'a> {
        let ascii = |byte: &u8| match byte {
            128..=255 => STANDING_IN as char,
            _ => *byte as char,
        };
        Walked {
            text,
            doc,
            asked: Cow::Owned(text.iter().map(ascii).collect()),
        }
    }

    /// One step. Only an opener writes to the stack, and a refused step changes nothing.
    pub fn step(&self, told: Told, before: Place, stack: &mut Stack) -> Stepped {
        if self.text.len() > LONGEST {
            return too_long(self.doc, told, before);
        }
        let stay = |given| Stepped {
            given,
            after: before,
        };
        match self.taken(told, before, stack) {
            Err(refusal) => stay(Given::Refused(refusal)),
            Ok(None) => stay(Given::Ended),
            Ok(Some(lexeme)) => advanced(lexeme, before, stack),
        }
    }

    /// The lexeme of the step, none at the end; the text is not over the limit. In this
    /// order: the kept refusal, 40, the end, the text's refusals, 30.
    fn taken(&self, told: Told, before: Place, stack: &Stack) -> Result<Option<Listed>, Refusal> {
        match told.keeps(self.doc) {
            Keeps::Nothing => (),
            Keeps::Refusal(kept) => return Err(kept),
            Keeps::Wrong => return Err(Refusal::at_start(40, self.doc)),
        }
        let innermost = self.innermost(before, stack)?;
        let lexeme = self.lexeme(before.position, innermost)?;
        match lexeme {
            Some(lexeme) if is_full(lexeme.code, before.depth, stack.places()) => {
                Err(Refusal::plain(30, lexeme.span))
            }
            _ => Ok(lexeme),
        }
    }

    /// The innermost opener, if anything is open; 40 where that cannot be said.
    fn innermost(&self, before: Place, stack: &Stack) -> Result<Option<(u8, Span)>, Refusal> {
        let wrong = Err(Refusal::at_start(40, self.doc));
        if before.position > self.text.len() || before.depth > stack.places() {
            return wrong;
        }
        let Some(place) = before.depth.checked_sub(1) else {
            return Ok(None);
        };
        let opener = stack.opener(place);
        match codes::is_opener(opener.0) {
            true => Ok(Some(opener)),
            false => wrong,
        }
    }

    fn lexeme(
        &self,
        position: usize,
        innermost: Option<(u8, Span)>,
    ) -> Result<Option<Listed>, Refusal> {
        if let Cow::Owned(_) = self.asked {
            self.over_127(position, innermost).map_or(Ok(()), Err)?;
        }
        let step = steps::turn(self.doc, &self.asked, position, innermost);
        let step = step.map_err(|error| of_lexing(&error))?;
        Ok(step.map(|step| Listed {
            code: codes::code(step.lexeme.0),
            span: step.lexeme.1,
        }))
    }

    /// The two refusals that a byte over 127 can bring: 11 outside strings, 22 after a
    /// backslash in a string.
    fn over_127(&self, position: usize, innermost: Option<(u8, Span)>) -> Option<Refusal> {
        let in_string = innermost.is_some_and(|(code, _)| matches!(code, 5..=8));
        let count =
            |bytes: &[u8], of: fn(u8) -> bool| bytes.iter().take_while(|byte| of(**byte)).count();
        let (number, len) = match &self.text[position..] {
            run @ [128..=255, ..] if !in_string => (11, count(run, |byte| byte > 127)),
            [b'\\', 128..=255, after @ ..] if in_string => {
                (22, 2 + count(after, |byte| matches!(byte, 0x80..=0xbf)))
            }
            _ => return None,
        };
        let span = Span::new(self.doc, position, position + len);
        Some(Refusal::plain(number, span))
    }
}

fn is_full(code: u8, depth: usize, places: usize) -> bool {
    codes::is_opener(code) && depth == places
}

fn advanced(lexeme: Listed, before: Place, stack: &mut Stack) -> Stepped {
    let mut depth = before.depth;
    if codes::is_opener(lexeme.code) {
        stack.put(depth, lexeme);
        depth += 1;
    }
    if codes::is_closer(lexeme.code) {
        depth -= 1;
    }
    Stepped {
        given: Given::Lexeme(lexeme),
        after: Place {
            position: lexeme.span.end(),
            depth,
        },
    }
}

// A walk.

/// The answers of a walk from its opening with so many places: the steps of the published
/// lexer, which has a stack of its own. Each step after these gives the last one again.
pub fn walk(trace: &Trace, places: usize) -> Vec<Stepped> {
    let mut answers = Vec::with_capacity(trace.taken.len() + 1);
    let mut after = Place::default();
    let mut last = trace.refusal;
    for taken in &trace.taken {
        if is_full(taken.code, taken.depth_before, places) {
            last = Some(Refusal::plain(30, taken.span));
            break;
        }
        after = Place {
            position: taken.span.end(),
            depth: taken.depth_after,
        };
        let lexeme = Listed {
            code: taken.code,
            span: taken.span,
        };
        answers.push(Stepped {
            given: Given::Lexeme(lexeme),
            after,
        });
    }
    answers.push(Stepped {
        given: last.map_or(Given::Ended, Given::Refused),
        after,
    });
    answers
}
