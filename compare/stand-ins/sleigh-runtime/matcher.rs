//! Stand-in for constructor matching. Nothing here is reached by `resolve`.

use crate::{ConstructorId, Decoder};

#[derive(Clone)]
pub struct Constraint;

pub struct Matcher;

impl Matcher {
    pub fn match_constructor(&self, _: &Decoder, _: usize) -> Option<(ConstructorId, usize)> {
        unimplemented!("not needed by `resolve`")
    }
}
