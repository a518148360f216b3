//! A section file's contents, its reader and its writer.

pub mod names;
pub mod read;
pub mod write;

use sleigh_parse::{ast, parser::StrIndex};

pub const BLOCK: usize = 512;
pub const PAYLOAD: usize = 510;
pub const HEADER: usize = 34;
pub const NONE: u16 = 65_535;

#[derive(Debug, Clone, PartialEq, Default)]
pub struct Section {
    pub names: Vec<Vec<u8>>,
    pub spaces: Vec<Space>,
    pub registers: Vec<Register>,
    pub bit_ranges: Vec<BitRange>,
    pub tables: Vec<Table>,
    pub user_ops: Vec<u16>,
    pub macros: Vec<ast::Macro>,
    pub others: Vec<u16>,
    pub fields: Vec<Field>,
    pub subtables: Vec<Subtable>,
    pub statements: Vec<ast::Statement>,
    pub default_space: Option<u16>,
    pub inst_start: u16,
    pub inst_next: u16,
    pub const_name: u16,
    pub delay_slot: u16,
}

#[derive(Debug, Clone, PartialEq)]
pub struct Space {
    pub name: u16,
    pub kind: u8,
    pub size: u16,
}

#[derive(Debug, Clone, PartialEq)]
pub struct Register {
    pub name: u16,
    pub size: u16,
}

#[derive(Debug, Clone, PartialEq)]
pub struct BitRange {
    pub name: u16,
    pub register: u16,
    pub first: u16,
    pub count: u16,
}

#[derive(Debug, Clone, PartialEq)]
pub struct Table {
    pub name: u16,
    pub export: Option<u16>,
}

#[derive(Debug, Clone, PartialEq)]
pub struct Field {
    pub name: u16,
    pub size: Option<u16>,
}

#[derive(Debug, Clone, PartialEq)]
pub struct Subtable {
    pub name: u16,
    pub table: u16,
}

pub fn ident(name: u16) -> ast::Ident {
    ast::Ident(StrIndex(name as u32))
}

pub fn index(ident: ast::Ident) -> u16 {
    ident.0 .0 as u16
}

impl Section {
    /// The size of a pointer: the default space's, else 8.
    pub fn pointer_size(&self) -> u16 {
        self.default_space.map_or(8, |space| self.spaces[space as usize].size)
    }

    /// How many statements an accepted section resolves: each one, and for each call of a macro
    /// its body. Counted without the original, which does not count. `None` above 4,096.
    pub fn statement_count(&self) -> Option<u64> {
        let mut bodies = vec![None; self.macros.len()];
        self.count(&self.statements, &mut bodies, 0)
    }

    fn count(
        &self,
        statements: &[ast::Statement],
        bodies: &mut [Option<u64>],
        depth: u32,
    ) -> Option<u64> {
        let mut total = 0;
        for statement in statements {
            total += 1 + self.count_call(statement, bodies, depth)?;
        }
        (depth <= 16 && total <= 4_096).then_some(total)
    }

    fn count_call(
        &self,
        statement: &ast::Statement,
        bodies: &mut [Option<u64>],
        depth: u32,
    ) -> Option<u64> {
        let Some(called) = self.called_macro(statement) else { return Some(0) };
        if bodies[called].is_none() {
            if depth == 16 {
                return None;
            }
            let count = self.count(&self.macros[called].body, bodies, depth + 1)?;
            bodies[called] = Some(count);
        }
        bodies[called]
    }

    fn called_macro(&self, statement: &ast::Statement) -> Option<usize> {
        let ast::Statement::Call(call) = statement else { return None };
        if index(call.name) == self.delay_slot {
            return None;
        }
        self.macros.iter().position(|def| def.name == call.name)
    }
}
