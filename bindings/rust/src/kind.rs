//! The kinds of lexemes.

/// The kind of a lexeme, or of a part of a string. The numbers are document 01's kind codes,
/// and the names those of `Token` in the published lexer, which has the prefix and style of
/// a quote and the form of an escape as data.
#[derive(Copy, Clone, Debug, Eq, Hash, PartialEq)]
#[repr(u8)]
pub enum Kind {
    /// Whitespace with fewer than two line feeds. Only a [`Walker`](crate::Walker) gives it;
    /// lexing drops it.
    Space = 0,
    /// Whitespace with two line feeds or more.
    Blank = 1,
    /// `#!` and what follows it, to before the line feed.
    Shebang = 2,
    /// `//` and what follows it, to before the line feed.
    LineComment = 3,
    /// A name that is no keyword.
    Ident = 4,
    /// `"`
    QuoteOpenPlainDouble = 5,
    /// `"""`
    QuoteOpenPlainTriple = 6,
    /// `f"`
    QuoteOpenFormatDouble = 7,
    /// `f"""`
    QuoteOpenFormatTriple = 8,
    /// `"` or `"""` at the end of a string.
    QuoteClose = 9,
    /// Bytes of a string that are no escape sequence. It may begin with a line feed and has
    /// none after that.
    StringInner = 10,
    /// `\` and one byte.
    EscapeSingle = 11,
    /// `\u` and four hexadecimal digits.
    EscapeUnicode4 = 12,
    /// `\u{`, hexadecimal digits and `}`.
    EscapeUnicodeDelim = 13,
    /// The `{` of a hole in a format string. In a list of parts: a whole hole, from its `{`
    /// to its `}`.
    HoleOpen = 14,
    /// The `}` of a hole.
    HoleClose = 15,
    /// A number that begins with `0x`.
    NumHexadecimal = 16,
    /// A number that begins with `0b`.
    NumBinary = 17,
    /// A decimal number.
    NumDecimal = 18,
    /// `and`
    KwAnd = 19,
    /// `assert`
    KwAssert = 20,
    /// `false`
    KwFalse = 21,
    /// `for`
    KwFor = 22,
    /// `else`
    KwElse = 23,
    /// `if`
    KwIf = 24,
    /// `import`
    KwImport = 25,
    /// `in`
    KwIn = 26,
    /// `let`
    KwLet = 27,
    /// `not`
    KwNot = 28,
    /// `null`
    KwNull = 29,
    /// `or`
    KwOr = 30,
    /// `trace`
    KwTrace = 31,
    /// `true`
    KwTrue = 32,
    /// `(`
    LParen = 33,
    /// `)`
    RParen = 34,
    /// `[`
    LBracket = 35,
    /// `]`
    RBracket = 36,
    /// `{`
    LBrace = 37,
    /// `}`
    RBrace = 38,
    /// `<`
    Lt = 39,
    /// `>`
    Gt = 40,
    /// `<=`
    LtEq = 41,
    /// `>=`
    GtEq = 42,
    /// `==`
    Eq2 = 43,
    /// `!=`
    Neq = 44,
    /// `->`
    ThinArrow = 45,
    /// `=>`
    FatArrow = 46,
    /// `=`
    Eq1 = 47,
    /// `!`
    Bang = 48,
    /// `*`
    Star = 49,
    /// `+`
    Plus = 50,
    /// `,`
    Comma = 51,
    /// `-`
    Minus = 52,
    /// `.`
    Dot = 53,
    /// `..`
    DotDot = 54,
    /// `...`
    DotDotDot = 55,
    /// `/`
    Slash = 56,
    /// `:`
    Colon = 57,
    /// `;`
    Semicolon = 58,
    /// `|`
    Pipe = 59,
}

use Kind::*;

impl Kind {
    /// Every kind, in the order of the codes.
    #[rustfmt::skip]
    pub const ALL: [Kind; 60] = [
        Space, Blank, Shebang, LineComment, Ident,
        QuoteOpenPlainDouble, QuoteOpenPlainTriple, QuoteOpenFormatDouble, QuoteOpenFormatTriple,
        QuoteClose, StringInner, EscapeSingle, EscapeUnicode4, EscapeUnicodeDelim,
        HoleOpen, HoleClose, NumHexadecimal, NumBinary, NumDecimal,
        KwAnd, KwAssert, KwFalse, KwFor, KwElse, KwIf, KwImport, KwIn, KwLet, KwNot, KwNull, KwOr,
        KwTrace, KwTrue,
        LParen, RParen, LBracket, RBracket, LBrace, RBrace,
        Lt, Gt, LtEq, GtEq, Eq2, Neq, ThinArrow, FatArrow, Eq1, Bang, Star, Plus, Comma, Minus,
        Dot, DotDot, DotDotDot, Slash, Colon, Semicolon, Pipe,
    ];

    /// The kind with this code; there is none over 59.
    ///
    /// ```
    /// use rcl::Kind;
    /// assert_eq!(Kind::from_code(4), Some(Kind::Ident));
    /// assert_eq!(Kind::from_code(60), None);
    /// ```
    pub fn from_code(code: u8) -> Option<Kind> {
        Kind::ALL.get(usize::from(code)).copied()
    }

    /// The code, 0 to 59.
    ///
    /// ```
    /// assert_eq!(rcl::Kind::Pipe.code(), 59);
    /// ```
    pub fn code(self) -> u8 {
        self as u8
    }

    /// Whether it opens a string: codes 5 to 8.
    ///
    /// ```
    /// use rcl::Kind;
    /// assert!(Kind::QuoteOpenFormatTriple.is_quote_open());
    /// assert!(!Kind::QuoteClose.is_quote_open());
    /// ```
    pub fn is_quote_open(self) -> bool {
        (QuoteOpenPlainDouble.code()..=QuoteOpenFormatTriple.code()).contains(&self.code())
    }

    /// Whether it is an escape sequence: codes 11 to 13.
    ///
    /// ```
    /// assert!(rcl::Kind::EscapeUnicode4.is_escape());
    /// ```
    pub fn is_escape(self) -> bool {
        (EscapeSingle.code()..=EscapeUnicodeDelim.code()).contains(&self.code())
    }

    /// Whether it stands on the stack until its closer is met: the quotes, `{` of a hole,
    /// `(`, `[` and `{`.
    ///
    /// ```
    /// use rcl::Kind;
    /// assert!(Kind::HoleOpen.is_opener());
    /// assert!(!Kind::RBrace.is_opener());
    /// ```
    pub fn is_opener(self) -> bool {
        self.is_quote_open() || matches!(self, HoleOpen | LParen | LBracket | LBrace)
    }
}
