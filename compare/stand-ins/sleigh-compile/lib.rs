//! Stand-in for the root of `sleigh-compile`; `symbols` and `constructor` are the original's text.

pub mod door;

mod constructor;
mod symbols;

pub(crate) struct Context;
