//! The judge: RCL's published lexer, unchanged, and what documents 01 and 02 say
//! on top of it. The build puts the published files beside links to ours.

// The published files hold more than is asked of them here.
#![allow(dead_code)]

pub mod cst;
pub mod error;
pub mod lexer;
pub mod source;
pub mod string;

pub mod arguments;
pub mod codes;
pub mod generate;
pub mod inputs;
pub mod lent;
pub mod reference;
pub mod refusal;
pub mod report;
pub mod respace;
pub mod strings;
pub mod tally;
pub mod walker;
pub mod whitespace;

#[cfg(test)]
mod marked;
