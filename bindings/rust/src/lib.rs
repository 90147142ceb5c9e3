//! RCL text: lexing, tidying and the values of strings, by the proved static library.
//!
//! Every function here is a thin, safe form of a call of `include/rcl.h`. The library
//! allocates nothing and keeps no pointer: the caller lends a [`List`] for lexemes, a [`Stack`]
//! for what is open and an output for bytes, each in slices of its own. What cannot be
//! answered is a [`Refusal`], with document 01's number, a span and perhaps a note. Only
//! [`lex_to_vec`] allocates.
//!
//! ```
//! use rcl::{lex, value, List, Stack};
//!
//! let text = br#"{ to = "A1", note = "caf\u00e9" }"#;
//! let (mut kinds, mut words) = ([0; 64], [0; 128]);
//! let (mut stack_kinds, mut stack_words) = ([0; 8], [0; 16]);
//! let mut list = List::new(&mut kinds, &mut words);
//! let mut stack = Stack::new(&mut stack_kinds, &mut stack_words);
//! lex(1, text, &mut list, &mut stack).answer.expect("The text is accepted.");
//!
//! let (mut part_kinds, mut part_words) = ([0; 8], [0; 16]);
//! let mut parts = List::new(&mut part_kinds, &mut part_words);
//! let mut output = [0; 32];
//! for (place, bytes) in list.entries().strings().zip(["A1", "caf\u{e9}"]) {
//!     let found = value(text, list.entries(), place, &mut parts, &mut output, 0).unwrap();
//!     assert_eq!(found.bytes(), bytes.as_bytes());
//! }
//! ```
//!
//! # Why the calls are sound
//!
//! It is proved of the library that a call stays inside the arrays that it is lent, whatever
//! counts, places, positions and spans it is given. What it asks of the caller is that each
//! pointer is that of a live array with the length beside it, and that an array which is
//! written overlaps no other. Both hold of slices: a `&[T]` or `&mut [T]` is live while it is
//! borrowed, and a `&mut [T]` overlaps no other. The pointer of an empty slice is not null and
//! points to nothing; nothing is read or written through it. A slice has at most `isize::MAX`
//! bytes, so that the end of an array does not overflow. No call has memory of its own, so
//! that calls may run at the same time.
//!
//! Offsets and counts are 64 bits in the library and `usize` here, which is the same on x86-64.

#[cfg(not(all(target_arch = "x86_64", target_pointer_width = "64")))]
compile_error!("The static library is for x86-64 alone.");

mod kind;
mod lexing;
mod list;
pub mod raw;
mod refusal;
mod span;
mod strings;
mod tally;
mod tidy;
mod value;
mod walker;

pub use kind::Kind;
pub use lexing::{lex, lex_to_vec, utf8, Counts, Lexed};
pub use list::{Entries, Lexeme, List, Stack};
pub use refusal::{Refusal, EXPLANATIONS};
pub use span::{Span, LARGEST_OFFSET};
pub use strings::{count_common_leading_spaces, is_identifier, is_keyword};
pub use strings::{parts, scalar_value, unescape};
pub use tally::{lex_tallied, Tally};
pub use tidy::{tidy, Tidied};
pub use value::{hand, value, write_value, Held, Value};
pub use walker::{Step, Steps, Walker};
