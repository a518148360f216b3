//! Reads a section file as document 01 says. Reading is strictly sequential, so the first
//! refusal that is met is the answer.

use std::collections::HashSet;

use sleigh_parse::ast::{self, Ident, PcodeExpr, PcodeOp, Statement};

use crate::{
    ident, BitRange, Field, Register, Section, Space, Subtable, Table, BLOCK, NONE, PAYLOAD,
};

pub const CUT: u64 = 3;
pub const LIMIT: u64 = 4;
pub const INDEX: u64 = 5;
pub const TWICE: u64 = 6;

const MAX_FILE: usize = 65_536;
const MAX_SIZE: u16 = 1_024;
const MAX_BIT: u16 = 8_192;
const MAX_COUNT: u16 = 1_024;
const MAX_ARGS: u8 = 8;
const MAX_DEPTH: u32 = 32;
const MAX_NAME: u8 = 24;

/// Largest counts, in the header's order: names, spaces, registers, bit ranges, tables, user ops,
/// macros, other symbols, fields, subtables, statements.
const MAX_COUNTS: [u16; 11] = [1_024, 8, 1_024, 1_024, 256, 256, 128, 1_024, 64, 32, 1_024];

type Read<T> = Result<T, u64>;

pub fn read(file: &[u8]) -> Read<Section> {
    let stream = join(file)?;
    let mut reader = Reader { stream: &stream, at: 0, counts: [0; 11] };
    let mut section = reader.header()?;
    reader.lists(&mut section)?;
    let count = reader.counts[10];
    section.statements = reader.statements(count)?;
    match stream[reader.at..].iter().all(|&b| b == 0) {
        true => Ok(section),
        false => Err(CUT),
    }
}

/// The payloads, once every block's check is right.
pub fn join(file: &[u8]) -> Read<Vec<u8>> {
    if file.is_empty() || file.len() > MAX_FILE || file.len() % BLOCK != 0 {
        return Err(1);
    }
    let mut stream = vec![];
    for (number, block) in file.chunks(BLOCK).enumerate() {
        let stated = u16::from_le_bytes([block[PAYLOAD], block[PAYLOAD + 1]]);
        if stated != check(&block[..PAYLOAD], number) {
            return Err(2);
        }
        stream.extend_from_slice(&block[..PAYLOAD]);
    }
    Ok(stream)
}

/// The payload's byte sum plus the block's number, modulo 65,536.
pub fn check(payload: &[u8], number: usize) -> u16 {
    let sum: usize = payload.iter().map(|&b| b as usize).sum();
    ((sum + number) % 65_536) as u16
}

struct Reader<'a> {
    stream: &'a [u8],
    at: usize,
    counts: [u16; 11],
}

fn within<T: PartialOrd>(value: T, limit: T) -> Read<T> {
    if value <= limit {
        Ok(value)
    } else {
        Err(LIMIT)
    }
}

fn size_of(value: u16) -> Read<Option<u16>> {
    if value == NONE {
        Ok(None)
    } else {
        within(value, MAX_SIZE).map(Some)
    }
}

impl Reader<'_> {
    fn bytes(&mut self, count: usize) -> Read<&[u8]> {
        let start = self.at;
        if self.stream.len() - start < count {
            return Err(CUT);
        }
        self.at += count;
        Ok(&self.stream[start..start + count])
    }

    fn u8(&mut self) -> Read<u8> {
        Ok(self.bytes(1)?[0])
    }

    fn u16(&mut self) -> Read<u16> {
        let b = self.bytes(2)?;
        Ok(u16::from_le_bytes([b[0], b[1]]))
    }

    fn u64(&mut self) -> Read<u64> {
        Ok(u64::from_le_bytes(self.bytes(8)?.try_into().unwrap()))
    }

    fn size(&mut self) -> Read<u16> {
        within(self.u16()?, MAX_SIZE)
    }

    fn maybe_size(&mut self) -> Read<Option<u16>> {
        size_of(self.u16()?)
    }

    fn bit(&mut self) -> Read<u16> {
        within(self.u16()?, MAX_BIT)
    }

    fn index(&mut self, count: u16) -> Read<u16> {
        let value = self.u16()?;
        if value < count {
            Ok(value)
        } else {
            Err(INDEX)
        }
    }

    fn name(&mut self) -> Read<u16> {
        self.index(self.counts[0])
    }

    fn ident(&mut self) -> Read<Ident> {
        self.name().map(ident)
    }

    fn maybe_ident(&mut self) -> Read<Option<Ident>> {
        match self.u16()? {
            NONE => Ok(None),
            value if value < self.counts[0] => Ok(Some(ident(value))),
            _ => Err(INDEX),
        }
    }

    fn header(&mut self) -> Read<Section> {
        within(self.u16()?, 0)?;
        for (i, limit) in MAX_COUNTS.into_iter().enumerate() {
            self.counts[i] = within(self.u16()?, limit)?;
        }
        let default_space = match self.u16()? {
            NONE => None,
            value if value < self.counts[1] => Some(value),
            _ => return Err(INDEX),
        };
        Ok(Section {
            default_space,
            inst_start: self.name()?,
            inst_next: self.name()?,
            const_name: self.name()?,
            delay_slot: self.name()?,
            ..Section::default()
        })
    }

    fn lists(&mut self, section: &mut Section) -> Read<()> {
        let mut spellings = HashSet::new();
        for _ in 0..self.counts[0] {
            let name = self.spelling()?;
            if !spellings.insert(name.clone()) {
                return Err(TWICE);
            }
            section.names.push(name);
        }
        let mut globals = HashSet::new();
        self.storage(section, &mut globals)?;
        self.symbols(section, &mut globals)?;
        self.locals(section, &mut HashSet::new())
    }

    fn spelling(&mut self) -> Read<Vec<u8>> {
        let length = self.u8()?;
        if length == 0 || length > MAX_NAME {
            return Err(LIMIT);
        }
        Ok(self.bytes(length as usize)?.to_vec())
    }

    /// A name that no entry before may have.
    fn fresh(&mut self, seen: &mut HashSet<u16>) -> Read<u16> {
        let name = self.name()?;
        if seen.insert(name) {
            Ok(name)
        } else {
            Err(TWICE)
        }
    }

    fn storage(&mut self, section: &mut Section, seen: &mut HashSet<u16>) -> Read<()> {
        for _ in 0..self.counts[1] {
            let name = self.fresh(seen)?;
            let kind = self.u8()?;
            if kind > 2 {
                return Err(CUT);
            }
            section.spaces.push(Space { name, kind, size: self.size()? });
        }
        for _ in 0..self.counts[2] {
            let name = self.fresh(seen)?;
            section.registers.push(Register { name, size: self.size()? });
        }
        for _ in 0..self.counts[3] {
            let name = self.fresh(seen)?;
            let register = self.index(self.counts[2])?;
            let first = self.bit()?;
            section.bit_ranges.push(BitRange { name, register, first, count: self.bit()? });
        }
        Ok(())
    }

    fn symbols(&mut self, section: &mut Section, seen: &mut HashSet<u16>) -> Read<()> {
        for _ in 0..self.counts[4] {
            let name = self.fresh(seen)?;
            section.tables.push(Table { name, export: self.maybe_size()? });
        }
        for _ in 0..self.counts[5] {
            section.user_ops.push(self.fresh(seen)?);
        }
        for _ in 0..self.counts[6] {
            let name = ident(self.fresh(seen)?);
            let params = self.params()?;
            let count = within(self.u16()?, MAX_COUNT)?;
            let body = self.statements(count)?;
            section.macros.push(ast::Macro { name, params, body });
        }
        for _ in 0..self.counts[7] {
            section.others.push(self.fresh(seen)?);
        }
        Ok(())
    }

    fn params(&mut self) -> Read<Vec<Ident>> {
        let count = within(self.u8()?, MAX_ARGS)?;
        (0..count).map(|_| self.ident()).collect()
    }

    fn locals(&mut self, section: &mut Section, seen: &mut HashSet<u16>) -> Read<()> {
        for _ in 0..self.counts[8] {
            let name = self.fresh(seen)?;
            section.fields.push(Field { name, size: self.maybe_size()? });
        }
        for _ in 0..self.counts[9] {
            let name = self.fresh(seen)?;
            section.subtables.push(Subtable { name, table: self.index(self.counts[4])? });
        }
        Ok(())
    }

    fn statements(&mut self, count: u16) -> Read<Vec<Statement>> {
        (0..count).map(|_| self.statement()).collect()
    }

    fn statement(&mut self) -> Read<Statement> {
        Ok(match self.u8()? {
            0 => Statement::Unimplemented,
            1 => Statement::Export { value: self.expr(1)? },
            2 => Statement::Local { name: self.ident()?, size: self.maybe_size()? },
            3 => {
                let (name, size) = (self.ident()?, self.maybe_size()?);
                Statement::LocalAssignment { name, size, expr: self.expr(1)? }
            }
            4 => Statement::Build { name: self.ident()? },
            5 => Statement::Copy { from: self.expr(1)?, to: self.expr(1)? },
            6 => {
                let (space, size) = (self.maybe_ident()?, self.maybe_size()?);
                Statement::Store { space, size, pointer: self.expr(1)?, value: self.expr(1)? }
            }
            7 => Statement::Call(self.call(1)?),
            8 => Statement::Branch { dst: self.target()?, hint: self.hint()? },
            9 => {
                let cond = self.expr(1)?;
                Statement::CondBranch { cond, dst: self.target()?, hint: self.hint()? }
            }
            10 => Statement::Label { label: self.ident()? },
            _ => return Err(CUT),
        })
    }

    fn call(&mut self, depth: u32) -> Read<ast::PcodeCall> {
        Ok(ast::PcodeCall { name: self.ident()?, args: self.args(depth)? })
    }

    fn args(&mut self, depth: u32) -> Read<Vec<PcodeExpr>> {
        let count = within(self.u8()?, MAX_ARGS)?;
        (0..count).map(|_| self.expr(depth)).collect()
    }

    fn target(&mut self) -> Read<ast::BranchDst> {
        Ok(match self.u8()? {
            0 => ast::BranchDst::Direct(self.jump_label()?),
            1 => ast::BranchDst::Indirect(self.jump_label()?),
            2 => ast::BranchDst::Label(self.ident()?),
            _ => return Err(CUT),
        })
    }

    fn jump_label(&mut self) -> Read<ast::JumpLabel> {
        Ok(match self.u8()? {
            0 => ast::JumpLabel::Ident(self.ident()?),
            1 => ast::JumpLabel::Integer(self.u64()?, self.size()?),
            _ => return Err(CUT),
        })
    }

    fn hint(&mut self) -> Read<ast::BranchHint> {
        Ok(match self.u8()? {
            0 => ast::BranchHint::Jump,
            1 => ast::BranchHint::Call,
            2 => ast::BranchHint::Return,
            _ => return Err(CUT),
        })
    }

    fn expr(&mut self, depth: u32) -> Read<PcodeExpr> {
        let code = self.u8()?;
        if code > 8 {
            return Err(CUT);
        }
        within(depth, MAX_DEPTH)?;
        let below = depth + 1;
        Ok(match code {
            0 => PcodeExpr::Ident { value: self.ident()? },
            1 => PcodeExpr::Integer { value: self.u64()? },
            2 => PcodeExpr::AddressOf { size: self.maybe_size()?, value: self.ident()? },
            3 => PcodeExpr::Truncate { value: Box::new(self.expr(below)?), size: self.size()? },
            4 => {
                let value = Box::new(self.expr(below)?);
                PcodeExpr::SliceBits { value, range: (self.bit()?, self.bit()?) }
            }
            5 => {
                let a = Box::new(self.expr(below)?);
                let op = self.operator()?;
                PcodeExpr::Op { a, op, b: Box::new(self.expr(below)?) }
            }
            6 => {
                let (space, size) = (self.maybe_ident()?, self.maybe_size()?);
                PcodeExpr::Deref { space, size, pointer: Box::new(self.expr(below)?) }
            }
            7 => PcodeExpr::ConstantPoolRef { params: self.args(below)? },
            _ => PcodeExpr::Call(self.call(below)?),
        })
    }

    fn operator(&mut self) -> Read<PcodeOp> {
        let code = self.u8()? as usize;
        OPERATORS.get(code).cloned().ok_or(CUT)
    }
}

/// `PcodeOp` in its own order: an operator's code is its place here.
pub const OPERATORS: [PcodeOp; 39] = [
    PcodeOp::IntMult,
    PcodeOp::IntDiv,
    PcodeOp::IntSignedDiv,
    PcodeOp::IntRem,
    PcodeOp::IntSignedRem,
    PcodeOp::IntAdd,
    PcodeOp::IntSub,
    PcodeOp::IntLeft,
    PcodeOp::IntRight,
    PcodeOp::IntSignedRight,
    PcodeOp::IntSignedLess,
    PcodeOp::IntSignedLessEqual,
    PcodeOp::IntLess,
    PcodeOp::IntLessEqual,
    PcodeOp::IntEqual,
    PcodeOp::IntNotEqual,
    PcodeOp::FloatDiv,
    PcodeOp::FloatMult,
    PcodeOp::FloatAdd,
    PcodeOp::FloatSub,
    PcodeOp::FloatLess,
    PcodeOp::FloatLessEqual,
    PcodeOp::FloatEqual,
    PcodeOp::FloatNotEqual,
    PcodeOp::IntAnd,
    PcodeOp::IntXor,
    PcodeOp::IntOr,
    PcodeOp::BoolXor,
    PcodeOp::BoolAnd,
    PcodeOp::BoolOr,
    PcodeOp::IntCarry,
    PcodeOp::IntSignedCarry,
    PcodeOp::IntSignedBorrow,
    PcodeOp::IntGreater,
    PcodeOp::IntGreaterEqual,
    PcodeOp::IntSignedGreater,
    PcodeOp::IntSignedGreaterEqual,
    PcodeOp::FloatGreater,
    PcodeOp::FloatGreaterEqual,
];
