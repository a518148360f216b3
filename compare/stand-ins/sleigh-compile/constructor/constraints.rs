//! Stand-in for the constraint section, which document 01 leaves out. The fields and subtables
//! that the original declares here come from the section file instead (disasm_actions.rs).

use super::Scope;
use sleigh_parse::ast;
use sleigh_runtime::{matcher::Constraint, DecodeAction};

pub(super) fn resolve(
    _: &mut Scope,
    _: &ast::ConstraintExpr,
) -> Result<(Vec<Vec<Constraint>>, Vec<DecodeAction>), String> {
    unimplemented!("not needed by `resolve`")
}
