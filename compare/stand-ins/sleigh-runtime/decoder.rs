//! Stand-ins for the decoder's names. Nothing here is reached by `resolve`.

use crate::SleighData;

pub enum ContextModValue {}
pub enum DisasmConstantValue {}
pub struct SubtableCtx;

pub struct Subtable {
    pub id: u32,
}

#[derive(Default)]
pub struct Instruction {
    pub subtables: Vec<Subtable>,
}

impl Instruction {
    pub fn root(&self, _: &SleighData) -> SubtableCtx {
        unimplemented!("not needed by `resolve`")
    }
}

pub struct Decoder {
    pub global_context: u64,
    pub allow_backtracking: bool,
    pub ignore_delay_slots: bool,
}

impl Decoder {
    pub fn new() -> Self {
        unimplemented!("not needed by `resolve`")
    }

    pub fn set_inst(&mut self, _addr: u64, _bytes: &[u8]) {
        unimplemented!("not needed by `resolve`")
    }

    pub fn decode_into(&mut self, _: &SleighData, _: &mut Instruction) -> Option<()> {
        unimplemented!("not needed by `resolve`")
    }
}
