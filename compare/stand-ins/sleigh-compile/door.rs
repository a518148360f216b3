//! A section as the original's symbol table, ready to be resolved any number of times.

use std::borrow::Cow;

use section::Section;
use sleigh_parse::{ast, Parser};
use sleigh_runtime::semantics::{Export, PcodeTmp, SemanticAction};

use crate::{
    constructor::{ContextAction, Scope},
    symbols::{Attachment, RamSpace, Symbol, SymbolKind, SymbolTable},
};

/// The id of a space that is neither RAM nor register.
const OTHER_SPACE: pcode::MemId = pcode::RESERVED_SPACE_END;

pub struct Outcome {
    pub actions: Vec<SemanticAction>,
    pub export: Option<Export>,
    pub temporaries: Vec<PcodeTmp>,
    pub labels: u32,
}

/// Statements that lie one after another, and the first one's ordinal.
pub struct Run<'a> {
    pub first: usize,
    pub statements: &'a [ast::Statement],
}

pub struct Ready<'a> {
    section: Cow<'a, Section>,
    symbols: SymbolTable,
}

impl<'a> Ready<'a> {
    pub fn new(section: &'a Section) -> Self {
        let macros = section.macros.clone();
        Self { symbols: symbols(section, macros), section: Cow::Borrowed(section) }
    }

    /// The same from a section that is not needed any more.
    pub fn owned(mut section: Section) -> Self {
        let macros = std::mem::take(&mut section.macros);
        Self { symbols: symbols(&section, macros), section: Cow::Owned(section) }
    }

    pub fn resolve(&self) -> Result<Outcome, String> {
        let mut scope = ContextAction::scope(&self.symbols, &self.section);
        ContextAction::resolve(&mut scope, &self.section.statements)
    }

    /// The nanoseconds that `count` calls of `resolve` take, their scopes being made before.
    pub fn time(&self, count: usize) -> u128 {
        let scope = || ContextAction::scope(&self.symbols, &self.section);
        let mut scopes: Vec<Scope> = (0..count).map(|_| scope()).collect();
        let start = std::time::Instant::now();
        for scope in &mut scopes {
            let outcome = ContextAction::resolve(scope, &self.section.statements);
            std::hint::black_box(outcome.is_ok());
        }
        start.elapsed().as_nanos()
    }

    /// The statements that `resolve` walks, macro bodies first.
    pub fn runs(&self) -> Vec<Run<'_>> {
        let bodies = self.symbols.macros.iter().map(|m| &m.body[..]);
        let mut first = 0;
        let mut runs = vec![];
        for statements in bodies.chain([&self.section.statements[..]]) {
            runs.push(Run { first, statements });
            first += statements.len();
        }
        runs
    }

    pub fn show(&self, statement: &ast::Statement) -> String {
        use ast::ParserDisplay;
        statement.display(&self.symbols.parser).to_string()
    }
}

fn symbols(section: &Section, macros: Vec<ast::Macro>) -> SymbolTable {
    let mut symbols = SymbolTable::new(Parser::new(&section.names));
    // The root table is the original's own; a section file has only its own tables.
    symbols.tables.clear();
    symbols.mapping.clear();
    symbols.inst_start_ident = section::ident(section.inst_start);
    symbols.inst_next_ident = section::ident(section.inst_next);
    symbols.const_ident = section::ident(section.const_name);
    symbols.delay_slot_ident = section::ident(section.delay_slot);
    define(&mut symbols, section, macros).expect("the reader lets no name be two globals");
    symbols
}

fn define(
    symbols: &mut SymbolTable,
    section: &Section,
    macros: Vec<ast::Macro>,
) -> Result<(), String> {
    for (i, space) in section.spaces.iter().enumerate() {
        define_space(symbols, space, section.default_space == Some(i as u16))?;
    }
    define_registers(symbols, section)?;
    for table in &section.tables {
        symbols.define_table(section::ident(table.name))?;
        symbols.tables.last_mut().unwrap().export = table.export;
    }
    for name in &section.user_ops {
        symbols.define_userop(section::ident(*name))?;
    }
    for def in macros {
        symbols.define_macro(def)?;
    }
    for (id, name) in section.others.iter().enumerate() {
        let symbol = Symbol { kind: SymbolKind::Token, id: id as u32 };
        symbols.map_symbol(section::ident(*name), symbol)?;
    }
    for size in section.fields.iter().filter_map(|field| field.size) {
        symbols.attachments.push(Attachment::Register(vec![], Some(size)));
    }
    Ok(())
}

fn define_registers(symbols: &mut SymbolTable, section: &Section) -> Result<(), String> {
    for register in &section.registers {
        symbols.define_register_names(ast::SpaceNameDef {
            space: symbols.register_space_ident,
            offset: 0,
            size: register.size,
            names: vec![section::ident(register.name)],
        })?;
    }
    for range in &section.bit_ranges {
        symbols.define_bitrange(ast::BitRange {
            name: section::ident(range.name),
            source: section::ident(section.registers[range.register as usize].name),
            range: (range.first, range.count),
        })?;
    }
    Ok(())
}

/// A space of the third kind has no counterpart in `define_space`, so it is put in by hand.
fn define_space(
    symbols: &mut SymbolTable,
    space: &section::Space,
    default: bool,
) -> Result<(), String> {
    let name = section::ident(space.name);
    let kind = match space.kind {
        0 => ast::SpaceKind::RamSpace,
        1 => ast::SpaceKind::RegisterSpace,
        _ => {
            let id = symbols.spaces.len() as u32;
            symbols.spaces.push(RamSpace { space_id: OTHER_SPACE, size: space.size, word_size: 1 });
            symbols.map_symbol(name, Symbol { kind: SymbolKind::Space, id })?;
            if default {
                symbols.default_space = Some(id);
            }
            return Ok(());
        }
    };
    symbols.define_space(ast::Space { name, kind, size: space.size, word_size: None, default })
}
