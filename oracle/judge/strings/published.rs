//! The published functions on strings, asked about spans that the lexer made.

use super::{Entry, Refused, Words};
use crate::cst::{Expr, StringPart};
use crate::lexer::{self, Escape};
use crate::refusal::of_escape;
use crate::source::{words, Span};
use crate::string;

/// What is no UTF-8 is no identifier: the Rust cannot be asked.
pub fn is_identifier(bytes: &[u8]) -> bool {
    std::str::from_utf8(bytes).is_ok_and(string::is_identifier)
}

pub fn is_keyword(bytes: &[u8]) -> bool {
    std::str::from_utf8(bytes).is_ok_and(lexer::is_keyword)
}

/// The text that an Escape lexeme stands for.
pub fn unescaped(text: &str, lexeme: &Entry) -> super::Result<String> {
    let mut output = String::new();
    let span = span(lexeme.at);
    match string::unescape_into(text, span, escape(lexeme.kind), &mut output) {
        Ok(()) => Ok(output),
        Err(error) => Err(refused(of_escape(&error).number, error.span)),
    }
}

/// The indent of the parts of a string.
pub fn indent(text: &str, parts: &[Entry]) -> usize {
    let parts: Vec<StringPart> = parts.iter().map(part).collect();
    string::count_common_leading_spaces(text, &parts)
}

fn refused(number: u8, span: Span) -> Refused {
    let (low, high) = words::of(span);
    Refused::new(number, Words { low, high })
}

fn span(at: Words) -> Span {
    words::to_span(at.low, at.high)
}

fn escape(kind: u8) -> Escape {
    match kind {
        11 => Escape::Single,
        12 => Escape::Unicode4,
        13 => Escape::UnicodeDelim,
        _ => panic!("The kind {kind} is no escape."),
    }
}

/// What stands in a hole does not matter to the indent.
fn part(part: &Entry) -> StringPart {
    let span = span(part.at);
    match part.kind {
        10 => StringPart::String(span),
        14 => StringPart::Hole(span, Expr::NullLit(span)),
        kind => StringPart::Escape(span, escape(kind)),
    }
}
