//! Stand-in for the disassembly actions, which document 01 leaves out, and the way in to
//! `semantics::resolve`: the scope's parts are visible here, below `constructor`, and
//! `ContextAction` is the one name that `constructor` hands to the crate.

use super::{semantics, Scope};
use crate::{door::Outcome, symbols::SymbolTable};
use section::Section;
use sleigh_parse::ast;
use sleigh_runtime::{semantics::Local, Field};

#[derive(Clone)]
pub(crate) struct DisasmActions {
    pub fields: Vec<Field>,
}

pub(super) fn resolve(_: &mut Scope, _: &[ast::DisasmAction]) -> Result<DisasmActions, String> {
    unimplemented!("not needed by `resolve`")
}

pub(crate) struct ContextAction;

impl ContextAction {
    /// The scope as it stands when `build` calls `resolve`: fields and subtables in file order.
    /// `add_field` is not used since it turns down a field called inst_next.
    pub(crate) fn scope<'a>(symbols: &'a SymbolTable, section: &Section) -> Scope<'a> {
        let mut scope = Scope::new(symbols);
        let mut attached = 0;
        for (i, field) in section.fields.iter().enumerate() {
            let id = field.size.map(|_| attached);
            attached += field.size.map_or(0, |_| 1);
            scope.fields.push(Field { attached: id, ..Field::i64() });
            scope.declare_local(section::ident(field.name), Local::Field(i as u32)).unwrap();
        }
        for (i, subtable) in section.subtables.iter().enumerate() {
            scope.subtables.push(subtable.table as u32);
            scope.declare_local(section::ident(subtable.name), Local::Subtable(i as u32)).unwrap();
        }
        scope
    }

    /// What `build` does: `resolve`, then the temporaries are copied from the scope.
    pub(crate) fn resolve(
        scope: &mut Scope,
        statements: &[ast::Statement],
    ) -> Result<Outcome, String> {
        let semantics = semantics::resolve(scope, statements)?;
        let labels = semantics.count_labels();
        Ok(Outcome {
            actions: semantics.actions,
            export: semantics.export,
            temporaries: scope.temporaries.clone(),
            labels,
        })
    }
}
