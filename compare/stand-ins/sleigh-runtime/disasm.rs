//! Stand-in for the disassembler. Nothing here is reached by `resolve`.

use crate::SubtableCtx;

pub fn disasm_subtable(_: SubtableCtx, _: &mut String) -> Option<()> {
    unimplemented!("not needed by `resolve`")
}
