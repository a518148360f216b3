//! Makes sections by name, for the examples and for the generator.

use section::{ident, index, BitRange, Field, Register, Section, Space, Subtable, Table};
use sleigh_parse::ast::{
    BranchDst, BranchHint, Ident, JumpLabel, Macro, PcodeCall, PcodeExpr, PcodeOp, Statement,
};

pub struct Maker {
    pub section: Section,
}

impl Maker {
    pub fn new() -> Self {
        let names = ["inst_start", "inst_next", "const", "delayslot"];
        let names = names.iter().map(|name| name.as_bytes().to_vec()).collect();
        let section =
            Section { names, inst_next: 1, const_name: 2, delay_slot: 3, ..Section::default() };
        Self { section }
    }

    /// With a RAM space of 8-byte addresses as the default space.
    pub fn with_ram() -> Self {
        let mut maker = Self::new();
        maker.space("ram", 0, 8);
        maker.section.default_space = Some(0);
        maker
    }

    pub fn name(&mut self, text: &str) -> Ident {
        let names = &mut self.section.names;
        let found = names.iter().position(|name| name == text.as_bytes());
        let at = found.unwrap_or_else(|| {
            names.push(text.as_bytes().to_vec());
            names.len() - 1
        });
        ident(at as u16)
    }

    pub fn space(&mut self, text: &str, kind: u8, size: u16) -> Ident {
        let name = self.name(text);
        self.section.spaces.push(Space { name: index(name), kind, size });
        name
    }

    pub fn register(&mut self, text: &str, size: u16) -> Ident {
        let name = self.name(text);
        self.section.registers.push(Register { name: index(name), size });
        name
    }

    pub fn bit_range(&mut self, text: &str, register: u16, first: u16, count: u16) -> Ident {
        let name = self.name(text);
        self.section.bit_ranges.push(BitRange { name: index(name), register, first, count });
        name
    }

    pub fn table(&mut self, text: &str, export: Option<u16>) -> Ident {
        let name = self.name(text);
        self.section.tables.push(Table { name: index(name), export });
        name
    }

    pub fn user_op(&mut self, text: &str) -> Ident {
        let name = self.name(text);
        self.section.user_ops.push(index(name));
        name
    }

    pub fn define(&mut self, text: &str, params: Vec<Ident>, body: Vec<Statement>) -> Ident {
        let name = self.name(text);
        self.section.macros.push(Macro { name, params, body });
        name
    }

    pub fn other(&mut self, text: &str) -> Ident {
        let name = self.name(text);
        self.section.others.push(index(name));
        name
    }

    pub fn field(&mut self, text: &str, size: Option<u16>) -> Ident {
        let name = self.name(text);
        self.section.fields.push(Field { name: index(name), size });
        name
    }

    pub fn subtable(&mut self, text: &str, table: u16) -> Ident {
        let name = self.name(text);
        self.section.subtables.push(Subtable { name: index(name), table });
        name
    }

    pub fn push(&mut self, statement: Statement) {
        self.section.statements.push(statement);
    }
}

pub fn var(value: Ident) -> PcodeExpr {
    PcodeExpr::Ident { value }
}

pub fn int(value: u64) -> PcodeExpr {
    PcodeExpr::Integer { value }
}

pub fn truncate(value: PcodeExpr, size: u16) -> PcodeExpr {
    PcodeExpr::Truncate { value: Box::new(value), size }
}

pub fn slice(value: PcodeExpr, first: u16, count: u16) -> PcodeExpr {
    PcodeExpr::SliceBits { value: Box::new(value), range: (first, count) }
}

pub fn op(a: PcodeExpr, op: PcodeOp, b: PcodeExpr) -> PcodeExpr {
    PcodeExpr::Op { a: Box::new(a), op, b: Box::new(b) }
}

pub fn deref(space: Option<Ident>, size: Option<u16>, pointer: PcodeExpr) -> PcodeExpr {
    PcodeExpr::Deref { space, size, pointer: Box::new(pointer) }
}

pub fn address_of(size: Option<u16>, value: Ident) -> PcodeExpr {
    PcodeExpr::AddressOf { size, value }
}

pub fn apply(name: Ident, args: Vec<PcodeExpr>) -> PcodeExpr {
    PcodeExpr::Call(PcodeCall { name, args })
}

pub fn call(name: Ident, args: Vec<PcodeExpr>) -> Statement {
    Statement::Call(PcodeCall { name, args })
}

pub fn copy(to: PcodeExpr, from: PcodeExpr) -> Statement {
    Statement::Copy { from, to }
}

pub fn local(name: Ident, size: Option<u16>) -> Statement {
    Statement::Local { name, size }
}

pub fn jump(dst: BranchDst) -> Statement {
    Statement::Branch { dst, hint: BranchHint::Jump }
}

pub fn direct(name: Ident) -> BranchDst {
    BranchDst::Direct(JumpLabel::Ident(name))
}

pub fn label(label: Ident) -> Statement {
    Statement::Label { label }
}
