//! Stand-in for RCL's error module, whose bodies are not among the published
//! files. It only keeps what the lexer reports: message, span, note and help.

use crate::source::Span;

/// An error as the published code builds it.
#[derive(Clone, Debug, Eq, PartialEq)]
pub struct Error {
    pub message: &'static str,
    pub span: Span,
    pub note: Option<(Span, &'static str)>,
    pub help: Option<&'static str>,
}

pub type Result<T> = std::result::Result<T, Error>;

/// Lets a span begin an error, as in `span.error("..")`.
pub trait IntoError {
    fn error(&self, message: &'static str) -> Error;
}

impl IntoError for Span {
    fn error(&self, message: &'static str) -> Error {
        Error {
            message,
            span: *self,
            note: None,
            help: None,
        }
    }
}

impl Error {
    pub fn with_note(mut self, at: Span, note: &'static str) -> Error {
        assert!(self.note.is_none(), "A second note would hide the first.");
        self.note = Some((at, note));
        self
    }

    pub fn with_help(mut self, help: &'static str) -> Error {
        assert!(self.help.is_none(), "A second help would hide the first.");
        self.help = Some(help);
        self
    }

    pub fn err<T>(self) -> Result<T> {
        Err(self)
    }
}
