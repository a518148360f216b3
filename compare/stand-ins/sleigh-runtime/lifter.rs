//! Stand-in for the lifter. Nothing here is reached by `resolve`.

use crate::{Instruction, SleighData};

pub struct Error;
pub struct Lifter;

impl Lifter {
    pub fn new() -> Self {
        unimplemented!("not needed by `resolve`")
    }

    pub fn lift(&mut self, _: &SleighData, _: &Instruction) -> Result<&pcode::Block, Error> {
        unimplemented!("not needed by `resolve`")
    }
}
