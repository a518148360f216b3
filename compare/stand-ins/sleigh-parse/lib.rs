//! Stand-in for the root of `sleigh-parse`; `ast` is the original's text.

pub mod ast;
pub mod parser;

pub use parser::Parser;

#[derive(Debug, Copy, Clone, PartialEq, Eq)]
pub struct Span {
    pub src: u32,
    pub start: u32,
}
