//! Stand-in for the display section, which document 01 leaves out.

use super::Scope;
use crate::Context;
use sleigh_parse::ast;

pub(super) fn resolve(
    _: &mut Context,
    _: &Scope,
    _: &ast::Constructor,
) -> Result<(u32, u32), String> {
    unimplemented!("not needed by `resolve`")
}
