//! What lexing a text must answer: the published lexer's steps, and on top of
//! them the checks, counts and limits of document 01.

use crate::codes;
use crate::error::Error;
use crate::lexer::steps::{steps, Step, Steps};
use crate::lexer::{lex, Lexeme, Token};
use crate::refusal::{of_lexing, Refusal};
use crate::source::{DocId, Span};

/// The longest text whose offsets fit a span.
pub const LONGEST: usize = (1 << 48) - 1;

/// A number of places that no text here can fill.
pub const AMPLE: usize = usize::MAX;

/// A lexeme of the list: its kind code and its span.
#[derive(Copy, Clone, Debug, Eq, PartialEq)]
pub struct Listed {
    pub code: u8,
    pub span: Span,
}

/// The five counts that every lexing result carries.
#[derive(Copy, Clone, Debug, Default, Eq, PartialEq)]
pub struct Counts {
    pub lexemes: usize,
    pub steps: usize,
    pub kept: usize,
    pub dropped: usize,
    pub deepest: usize,
}

/// The list, the counts, and the refusal that ended lexing, if any.
#[derive(Clone, Debug, Eq, PartialEq)]
pub struct Answer {
    pub listed: Vec<Listed>,
    pub counts: Counts,
    pub refusal: Option<Refusal>,
}

/// A step that was not refused: a Space too.
#[derive(Copy, Clone, Debug)]
pub struct Taken {
    pub code: u8,
    pub span: Span,
    /// How many delimiters are open before and after it.
    pub depth_before: usize,
    pub depth_after: usize,
}

/// The steps of a text with ample memory, and the refusal that ends them.
#[derive(Clone, Debug)]
pub struct Trace {
    pub taken: Vec<Taken>,
    pub refusal: Option<Refusal>,
}

/// What lexing answers when it is lent so many places for list and stack.
pub fn answer(text: &[u8], doc: DocId, list_places: usize, stack_places: usize) -> Answer {
    within(&trace(text, doc), list_places, stack_places)
}

/// The steps with ample memory. Refusal 2 comes first, then 1, then the steps.
pub fn trace(text: &[u8], doc: DocId) -> Trace {
    match checked(text, doc) {
        Ok(input) => trace_of(input, doc),
        Err(refusal) => Trace {
            taken: Vec::new(),
            refusal: Some(refusal),
        },
    }
}

/// The same of any text over the limit: refusal 2.
pub fn too_long(doc: DocId) -> Trace {
    Trace {
        taken: Vec::new(),
        refusal: Some(Refusal::at_start(2, doc)),
    }
}

/// Refusals 2 and 1.
pub fn checked(text: &[u8], doc: DocId) -> Result<&str, Refusal> {
    if text.len() > LONGEST {
        return Err(Refusal::at_start(2, doc));
    }
    std::str::from_utf8(text).map_err(|error| {
        let at = error.valid_up_to();
        Refusal::plain(1, Span::new(doc, at, at))
    })
}

fn trace_of(input: &str, doc: DocId) -> Trace {
    let steps = steps(doc, input);
    assert_same_as_lex(input, doc, &steps);
    Trace {
        taken: steps.taken.iter().map(taken).collect(),
        refusal: steps.error.as_ref().map(of_lexing),
    }
}

fn taken(step: &Step) -> Taken {
    let (token, span) = step.lexeme;
    let taken = Taken {
        code: codes::code(token),
        span,
        depth_before: step.depth_before,
        depth_after: step.depth_after,
    };
    assert_depth(&taken);
    taken
}

/// The codes that document 01 calls openers and closers are those with which
/// the published lexer pushes and pops.
fn assert_depth(taken: &Taken) {
    let opened = codes::is_opener(taken.code) as usize;
    let closed = codes::is_closer(taken.code) as usize;
    assert_eq!(
        taken.depth_before + opened,
        taken.depth_after + closed,
        "The depth does not follow from the kind: {taken:?}",
    );
}

/// Driving step by step must give what the published `lex` gives.
fn assert_same_as_lex(input: &str, doc: DocId, steps: &Steps) {
    match (lex(doc, input), &steps.error) {
        (Ok(lexemes), None) => assert_eq!(lexemes, significant(steps)),
        (Err(error), Some(ours)) => assert_eq!(&error, ours),
        (theirs, ours) => differ(input, theirs.err().as_ref(), ours.as_ref()),
    }
}

fn significant(steps: &Steps) -> Vec<Lexeme> {
    let lexemes = steps.taken.iter().map(|step| step.lexeme);
    lexemes
        .filter(|(token, _)| *token != Token::Space)
        .collect()
}

fn differ(input: &str, theirs: Option<&Error>, ours: Option<&Error>) {
    panic!("lex and its steps differ on {input:?}: {theirs:?}, {ours:?}");
}

/// The answer with so many places: before a step is counted, 30 where an opener
/// meets a full stack, then 31 where a lexeme meets a full list.
pub fn within(trace: &Trace, list_places: usize, stack_places: usize) -> Answer {
    let mut answer = Answer {
        listed: Vec::new(),
        counts: Counts::default(),
        refusal: None,
    };
    for taken in &trace.taken {
        answer.refusal = memory_refusal(taken, answer.counts.lexemes, list_places, stack_places);
        if answer.refusal.is_some() {
            return answer;
        }
        advance(&mut answer, taken);
    }
    answer.refusal = trace.refusal;
    answer
}

fn memory_refusal(
    taken: &Taken,
    lexemes: usize,
    list_places: usize,
    stack_places: usize,
) -> Option<Refusal> {
    if codes::is_opener(taken.code) && taken.depth_before == stack_places {
        return Some(Refusal::plain(30, taken.span));
    }
    if taken.code != codes::SPACE && lexemes == list_places {
        return Some(Refusal::plain(31, taken.span));
    }
    None
}

fn advance(answer: &mut Answer, taken: &Taken) {
    let counts = &mut answer.counts;
    counts.steps += 1;
    counts.deepest = counts.deepest.max(taken.depth_after);
    if taken.code == codes::SPACE {
        counts.dropped += taken.span.len();
        return;
    }
    counts.lexemes += 1;
    counts.kept += taken.span.len();
    answer.listed.push(Listed {
        code: taken.code,
        span: taken.span,
    });
}
