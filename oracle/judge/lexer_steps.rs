// Ours from here on: the build appends this to a copy of the published lexer,
// because `Lexer` is private to its module and a child module may use it.
pub mod steps {
    use super::{Lexeme, Lexer, QuoteStyle, State};
    use crate::error::{Error, Result};
    use crate::source::{DocId, Span};

    /// One turn of the loop in `lex`, whitespace not yet dropped.
    pub struct Step {
        pub lexeme: Lexeme,
        /// How many delimiters are open before and after the step.
        pub depth_before: usize,
        pub depth_after: usize,
    }

    /// All the steps that succeed, and the error that follows them, if any.
    pub struct Steps {
        pub taken: Vec<Step>,
        pub error: Option<Error>,
    }

    /// Drive the lexer as `lex` does, but keep the steps before an error.
    pub fn steps(doc: DocId, input: &str) -> Steps {
        let mut lexer = Lexer::new(doc, input);
        let mut taken = Vec::new();
        let error = drive(&mut lexer, &mut taken).err();
        Steps { taken, error }
    }

    fn drive(lexer: &mut Lexer, taken: &mut Vec<Step>) -> Result<()> {
        while lexer.start < lexer.input.len() {
            taken.push(step(lexer)?);
        }
        lexer.report_unclosed_delimiters()
    }

    fn step(lexer: &mut Lexer) -> Result<Step> {
        // The depth is read first: a mismatched closer pops before it fails.
        let depth_before = lexer.state.len();
        let lexeme = lexer.next()?;
        let depth_after = lexer.state.len();
        Ok(Step {
            lexeme,
            depth_before,
            depth_after,
        })
    }

    /// One turn of that loop from any place of the text; at its end what follows the
    /// loop. The lexer looks at the innermost open thing alone, so no other is given: its
    /// code in document 01, and where it was opened.
    pub fn turn(
        doc: DocId,
        input: &str,
        start: usize,
        innermost: Option<(u8, Span)>,
    ) -> Result<Option<Step>> {
        let state = innermost.map(|(code, span)| (span, opened(code)));
        let mut lexer = Lexer {
            start,
            state: state.into_iter().collect(),
            ..Lexer::new(doc, input)
        };
        if start == input.len() {
            return lexer.report_unclosed_delimiters().map(|()| None);
        }
        step(&mut lexer).map(Some)
    }

    fn opened(code: u8) -> State {
        match code {
            5 => State::String(QuoteStyle::Double),
            6 => State::String(QuoteStyle::Triple),
            7 => State::Format(QuoteStyle::Double),
            8 => State::Format(QuoteStyle::Triple),
            14 => State::Hole,
            33 => State::Paren,
            35 => State::Bracket,
            37 => State::Brace,
            other => panic!("Nothing is opened by a lexeme of code {other}."),
        }
    }
}
