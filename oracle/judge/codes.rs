//! The kind codes of document 01.

use crate::lexer::{Escape, QuoteStyle, StringPrefix, Token};

pub const SPACE: u8 = 0;
pub const BLANK: u8 = 1;
pub const SHEBANG: u8 = 2;
pub const LINE_COMMENT: u8 = 3;

/// The code of a token. `Eof` has none, and the lexer never returns it.
pub fn code(token: Token) -> u8 {
    match token {
        Token::Space => SPACE,
        Token::Blank => BLANK,
        Token::Shebang => SHEBANG,
        Token::LineComment => LINE_COMMENT,
        Token::Ident => 4,
        Token::QuoteOpen(prefix, style) => quote_open(prefix, style),
        Token::QuoteClose => 9,
        Token::StringInner => 10,
        Token::Escape(escape) => escape_code(escape),
        Token::HoleOpen => 14,
        Token::HoleClose => 15,
        Token::NumHexadecimal => 16,
        Token::NumBinary => 17,
        Token::NumDecimal => 18,
        Token::Eof => panic!("The lexer does not return Eof, and it has no code."),
        other => keyword_or_punctuation(other),
    }
}

fn quote_open(prefix: StringPrefix, style: QuoteStyle) -> u8 {
    match (prefix, style) {
        (StringPrefix::None, QuoteStyle::Double) => 5,
        (StringPrefix::None, QuoteStyle::Triple) => 6,
        (StringPrefix::Format, QuoteStyle::Double) => 7,
        (StringPrefix::Format, QuoteStyle::Triple) => 8,
    }
}

fn escape_code(escape: Escape) -> u8 {
    match escape {
        Escape::Single => 11,
        Escape::Unicode4 => 12,
        Escape::UnicodeDelim => 13,
    }
}

/// The tokens from `KwAnd` on, in the order in which `Token` lists them.
const IN_ORDER: [Token; 41] = [
    Token::KwAnd,
    Token::KwAssert,
    Token::KwFalse,
    Token::KwFor,
    Token::KwElse,
    Token::KwIf,
    Token::KwImport,
    Token::KwIn,
    Token::KwLet,
    Token::KwNot,
    Token::KwNull,
    Token::KwOr,
    Token::KwTrace,
    Token::KwTrue,
    Token::LParen,
    Token::RParen,
    Token::LBracket,
    Token::RBracket,
    Token::LBrace,
    Token::RBrace,
    Token::Lt,
    Token::Gt,
    Token::LtEq,
    Token::GtEq,
    Token::Eq2,
    Token::Neq,
    Token::ThinArrow,
    Token::FatArrow,
    Token::Eq1,
    Token::Bang,
    Token::Star,
    Token::Plus,
    Token::Comma,
    Token::Minus,
    Token::Dot,
    Token::DotDot,
    Token::DotDotDot,
    Token::Slash,
    Token::Colon,
    Token::Semicolon,
    Token::Pipe,
];

fn keyword_or_punctuation(token: Token) -> u8 {
    let place = IN_ORDER.iter().position(|t| *t == token);
    let place = place.unwrap_or_else(|| panic!("{token:?} has no code."));
    19 + place as u8
}

/// Whether a lexeme of this code opens something that a closer must end.
pub fn is_opener(code: u8) -> bool {
    matches!(code, 5..=8 | 14 | 33 | 35 | 37)
}

/// Whether a lexeme of this code ends what an opener began.
pub fn is_closer(code: u8) -> bool {
    matches!(code, 9 | 15 | 34 | 36 | 38)
}
