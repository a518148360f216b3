//! Writes a section as a file. Values are written as they stand, also ones that the reader
//! refuses, so that the generator can make those too.

use sleigh_parse::ast::{self, Ident, PcodeExpr, Statement};

use crate::{index, read, Section, BLOCK, NONE, PAYLOAD};

pub fn write(section: &Section) -> Vec<u8> {
    seal(&stream(section))
}

/// The stream cut into blocks, each with its check.
pub fn seal(stream: &[u8]) -> Vec<u8> {
    let mut file = vec![];
    for (number, part) in stream.chunks(PAYLOAD).enumerate() {
        let mut block = part.to_vec();
        block.resize(PAYLOAD, 0);
        let check = read::check(&block, number);
        block.extend_from_slice(&check.to_le_bytes());
        file.extend_from_slice(&block);
    }
    file
}

/// The same file with every block's check made right again.
pub fn reseal(file: &[u8]) -> Vec<u8> {
    let mut out = file.to_vec();
    for (number, block) in out.chunks_mut(BLOCK).enumerate() {
        if block.len() == BLOCK {
            let check = read::check(&block[..PAYLOAD], number);
            block[PAYLOAD..].copy_from_slice(&check.to_le_bytes());
        }
    }
    out
}

pub fn stream(section: &Section) -> Vec<u8> {
    let mut w = Writer { out: vec![] };
    w.header(section);
    for name in &section.names {
        w.u8(name.len() as u8);
        w.out.extend_from_slice(name);
    }
    w.storage(section);
    w.symbols(section);
    for field in &section.fields {
        w.u16(field.name);
        w.maybe(field.size);
    }
    for subtable in &section.subtables {
        w.u16(subtable.name);
        w.u16(subtable.table);
    }
    section.statements.iter().for_each(|s| w.statement(s));
    w.out
}

struct Writer {
    out: Vec<u8>,
}

impl Writer {
    fn u8(&mut self, value: u8) {
        self.out.push(value);
    }

    fn u16(&mut self, value: u16) {
        self.out.extend_from_slice(&value.to_le_bytes());
    }

    fn u64(&mut self, value: u64) {
        self.out.extend_from_slice(&value.to_le_bytes());
    }

    fn maybe(&mut self, value: Option<u16>) {
        self.u16(value.unwrap_or(NONE));
    }

    fn ident(&mut self, ident: Ident) {
        self.u16(index(ident));
    }

    fn maybe_ident(&mut self, ident: Option<Ident>) {
        self.maybe(ident.map(index));
    }

    fn header(&mut self, s: &Section) {
        self.u16(0);
        let counts = [
            s.names.len(),
            s.spaces.len(),
            s.registers.len(),
            s.bit_ranges.len(),
            s.tables.len(),
            s.user_ops.len(),
            s.macros.len(),
            s.others.len(),
            s.fields.len(),
            s.subtables.len(),
            s.statements.len(),
        ];
        counts.into_iter().for_each(|count| self.u16(count as u16));
        self.maybe(s.default_space);
        for name in [s.inst_start, s.inst_next, s.const_name, s.delay_slot] {
            self.u16(name);
        }
    }

    fn storage(&mut self, section: &Section) {
        for space in &section.spaces {
            self.u16(space.name);
            self.u8(space.kind);
            self.u16(space.size);
        }
        for register in &section.registers {
            self.u16(register.name);
            self.u16(register.size);
        }
        for range in &section.bit_ranges {
            for value in [range.name, range.register, range.first, range.count] {
                self.u16(value);
            }
        }
    }

    fn symbols(&mut self, section: &Section) {
        for table in &section.tables {
            self.u16(table.name);
            self.maybe(table.export);
        }
        section.user_ops.iter().for_each(|name| self.u16(*name));
        for def in &section.macros {
            self.ident(def.name);
            self.u8(def.params.len() as u8);
            def.params.iter().for_each(|name| self.ident(*name));
            self.u16(def.body.len() as u16);
            def.body.iter().for_each(|s| self.statement(s));
        }
        section.others.iter().for_each(|name| self.u16(*name));
    }

    fn statement(&mut self, statement: &Statement) {
        match statement {
            Statement::Unimplemented => self.u8(0),
            Statement::Export { value } => {
                self.u8(1);
                self.expr(value);
            }
            Statement::Local { name, size } => self.local(2, *name, *size),
            Statement::LocalAssignment { name, size, expr } => {
                self.local(3, *name, *size);
                self.expr(expr);
            }
            Statement::Build { name } => self.named(4, *name),
            Statement::Copy { from, to } => {
                self.u8(5);
                self.expr(from);
                self.expr(to);
            }
            Statement::Store { space, size, pointer, value } => {
                self.address(6, *space, *size, pointer);
                self.expr(value);
            }
            Statement::Call(call) => self.call(7, call),
            Statement::Branch { dst, hint } => {
                self.u8(8);
                self.jump(dst, hint);
            }
            Statement::CondBranch { cond, dst, hint } => {
                self.u8(9);
                self.expr(cond);
                self.jump(dst, hint);
            }
            Statement::Label { label } => self.named(10, *label),
        }
    }

    fn local(&mut self, code: u8, name: Ident, size: Option<u16>) {
        self.named(code, name);
        self.maybe(size);
    }

    fn named(&mut self, code: u8, name: Ident) {
        self.u8(code);
        self.ident(name);
    }

    fn address(&mut self, code: u8, space: Option<Ident>, size: Option<u16>, pointer: &PcodeExpr) {
        self.u8(code);
        self.maybe_ident(space);
        self.maybe(size);
        self.expr(pointer);
    }

    fn call(&mut self, code: u8, call: &ast::PcodeCall) {
        self.named(code, call.name);
        self.args(&call.args);
    }

    fn args(&mut self, args: &[PcodeExpr]) {
        self.u8(args.len() as u8);
        args.iter().for_each(|arg| self.expr(arg));
    }

    fn jump(&mut self, dst: &ast::BranchDst, hint: &ast::BranchHint) {
        match dst {
            ast::BranchDst::Direct(label) => self.jump_label(0, label),
            ast::BranchDst::Indirect(label) => self.jump_label(1, label),
            ast::BranchDst::Label(name) => self.named(2, *name),
        }
        self.u8(match hint {
            ast::BranchHint::Jump => 0,
            ast::BranchHint::Call => 1,
            ast::BranchHint::Return => 2,
        });
    }

    fn jump_label(&mut self, code: u8, label: &ast::JumpLabel) {
        self.u8(code);
        match label {
            ast::JumpLabel::Ident(name) => self.named(0, *name),
            ast::JumpLabel::Integer(value, size) => {
                self.u8(1);
                self.u64(*value);
                self.u16(*size);
            }
        }
    }

    fn expr(&mut self, expr: &PcodeExpr) {
        match expr {
            PcodeExpr::Ident { value } => self.named(0, *value),
            PcodeExpr::Integer { value } => {
                self.u8(1);
                self.u64(*value);
            }
            PcodeExpr::AddressOf { size, value } => {
                self.u8(2);
                self.maybe(*size);
                self.ident(*value);
            }
            PcodeExpr::Truncate { value, size } => {
                self.u8(3);
                self.expr(value);
                self.u16(*size);
            }
            PcodeExpr::SliceBits { value, range } => {
                self.u8(4);
                self.expr(value);
                self.u16(range.0);
                self.u16(range.1);
            }
            PcodeExpr::Op { a, op, b } => {
                self.u8(5);
                self.expr(a);
                self.u8(read::OPERATORS.iter().position(|x| x == op).unwrap() as u8);
                self.expr(b);
            }
            PcodeExpr::Deref { space, size, pointer } => self.address(6, *space, *size, pointer),
            PcodeExpr::ConstantPoolRef { params } => {
                self.u8(7);
                self.args(params);
            }
            PcodeExpr::Call(call) => self.call(8, call),
        }
    }
}
