//! Expressions of a wanted size, most of the time.

use sleigh_parse::ast::{Ident, PcodeExpr, PcodeOp};

use super::world::{Known, World};
use crate::maker::*;

pub type Want = Option<u16>;

pub const ARITHMETIC: [PcodeOp; 14] = [
    PcodeOp::IntMult,
    PcodeOp::IntDiv,
    PcodeOp::IntSignedDiv,
    PcodeOp::IntRem,
    PcodeOp::IntSignedRem,
    PcodeOp::IntAdd,
    PcodeOp::IntSub,
    PcodeOp::IntAnd,
    PcodeOp::IntXor,
    PcodeOp::IntOr,
    PcodeOp::FloatDiv,
    PcodeOp::FloatMult,
    PcodeOp::FloatAdd,
    PcodeOp::FloatSub,
];
pub const SHIFTS: [PcodeOp; 3] = [PcodeOp::IntLeft, PcodeOp::IntRight, PcodeOp::IntSignedRight];
pub const COMPARISONS: [PcodeOp; 19] = [
    PcodeOp::IntSignedLess,
    PcodeOp::IntSignedLessEqual,
    PcodeOp::IntLess,
    PcodeOp::IntLessEqual,
    PcodeOp::IntEqual,
    PcodeOp::IntNotEqual,
    PcodeOp::FloatLess,
    PcodeOp::FloatLessEqual,
    PcodeOp::FloatEqual,
    PcodeOp::FloatNotEqual,
    PcodeOp::IntCarry,
    PcodeOp::IntSignedCarry,
    PcodeOp::IntSignedBorrow,
    PcodeOp::IntGreater,
    PcodeOp::IntGreaterEqual,
    PcodeOp::IntSignedGreater,
    PcodeOp::IntSignedGreaterEqual,
    PcodeOp::FloatGreater,
    PcodeOp::FloatGreaterEqual,
];
pub const BOOLEANS: [PcodeOp; 3] = [PcodeOp::BoolXor, PcodeOp::BoolAnd, PcodeOp::BoolOr];

/// Spellings whose input has the output's size, and those whose input is free.
pub const EQUAL: [&str; 8] = ["~", "-", "f-", "abs", "sqrt", "ceil", "floor", "round"];
pub const FREE: [&str; 9] = [
    "zext",
    "zxt",
    "sext",
    "trunc",
    "int2float",
    "uint2float",
    "float2float",
    "popcount",
    "lzcount",
];
pub const CARRIES: [&str; 3] = ["carry", "scarry", "sborrow"];

impl World {
    pub fn expr(&mut self, want: Want, depth: usize) -> PcodeExpr {
        let want = if self.noisy() {
            self.rng.pick(&[None, Some(1), Some(2), Some(4), Some(8)])
        } else {
            want
        };
        if depth == 0 {
            return self.leaf(want);
        }
        let d = depth - 1;
        match self.rng.weighted(&[30, 20, 6, 12, 9, 12, 8, 6, 6, 4, 3, 2, 1]) {
            0 => self.leaf(want),
            1 => {
                let op_code = self.one_of(&ARITHMETIC);
                op(self.expr(want, d), op_code, self.expr(want, d))
            }
            2 => {
                let (op_code, count) =
                    (self.one_of(&SHIFTS), self.rng.pick(&[None, None, Some(1), Some(4)]));
                op(self.expr(want, d), op_code, self.expr(count, d))
            }
            3 => self.boolean(want, d),
            4 => self.deref(want, d),
            5 => self.builtin(want, d),
            6 => self.slice(want, d),
            7 => truncate(self.expr(None, d), self.sized(want)),
            8 => self.user_op(want, d),
            9 => self.subpiece(),
            10 => self.address_of(want),
            11 => self.const_deref(want),
            _ => self.odd_expr(want, d),
        }
    }

    pub fn one_of(&mut self, ops: &[PcodeOp]) -> PcodeOp {
        ops[self.rng.below(ops.len())].clone()
    }

    pub fn sized(&mut self, want: Want) -> u16 {
        want.unwrap_or_else(|| self.size())
    }

    fn boolean(&mut self, want: Want, d: usize) -> PcodeExpr {
        if want.is_some_and(|size| size != 1) && !self.noisy() {
            let name = self.maker.name("zext");
            return apply(name, vec![self.boolean(Some(1), d)]);
        }
        let size = self.size();
        match self.rng.below(10) {
            0..=6 => {
                let op_code = self.one_of(&COMPARISONS);
                op(self.expr(Some(size), d), op_code, self.expr(Some(size), d))
            }
            _ => {
                let op_code = self.one_of(&BOOLEANS);
                op(self.expr(Some(1), d), op_code, self.expr(Some(1), d))
            }
        }
    }

    /// A space to load from or store to: none is the default one.
    pub fn some_space(&mut self) -> Option<Ident> {
        match self.rng.below(100) {
            0..=54 => None,
            55..=74 => Some(self.ram),
            75..=95 => self.register_space.or(Some(self.ram)),
            96 => self.other_space,
            97 => Some(self.any_name()),
            _ => Some(self.maker.name("const")),
        }
    }

    pub fn maybe_size(&mut self, want: Want) -> Want {
        match self.rng.below(20) {
            0..=13 => Some(self.sized(want)),
            14 => Some(0),
            _ => None,
        }
    }

    fn deref(&mut self, want: Want, d: usize) -> PcodeExpr {
        let (space, size) = (self.some_space(), self.maybe_size(want));
        let pointer = self.pointer();
        deref(space, size, self.expr(pointer, d))
    }

    fn builtin(&mut self, want: Want, d: usize) -> PcodeExpr {
        let kind = self.rng.weighted(&[8, 8, if want == Some(1) { 8 } else { 1 }, 1]);
        let (name, args) = match kind {
            0 => (self.rng.pick(&EQUAL), vec![self.expr(want, d)]),
            1 => {
                let size = self.size();
                (self.rng.pick(&FREE), vec![self.expr(Some(size), d)])
            }
            2 => (self.rng.pick(&["!", "nan"]), vec![self.expr(Some(1), d)]),
            _ => {
                let size = Some(self.size());
                (self.rng.pick(&CARRIES), vec![self.expr(size, d), self.expr(size, d)])
            }
        };
        let mut args = args;
        if self.noisy() && self.rng.percent(30) {
            args.push(int(1));
        }
        let name = self.maker.name(name);
        apply(name, args)
    }

    fn slice(&mut self, want: Want, d: usize) -> PcodeExpr {
        let bytes = self.sized(want).min(16);
        let (first, count) = match self.rng.below(10) {
            0..=3 => (8 * self.rng.below(3) as u16, 8 * bytes),
            4..=8 => {
                (self.rng.below(20) as u16, (8 * bytes).saturating_sub(self.rng.below(8) as u16))
            }
            _ => (
                self.rng.pick(&[0, 7, 56, 57, 63, 64, 8_192]),
                self.rng.pick(&[0, 1, 8, 64, 65, 8_192]),
            ),
        };
        let inner = Some(16);
        slice(self.expr(inner, d), first, count)
    }

    fn user_op(&mut self, want: Want, d: usize) -> PcodeExpr {
        let Some(name) = self.rng.maybe_pick(&self.user_ops) else { return self.leaf(want) };
        let count = self.rng.pick(&[0, 1, 1, 2, 2, 3, 3, 4, 5, 6, 7, 8]);
        let args = (0..count).map(|_| {
            let size = self.size();
            self.expr(Some(size), d.min(1))
        });
        let args = args.collect();
        apply(name, args)
    }

    fn subpiece(&mut self) -> PcodeExpr {
        let known = self.named(None);
        let args = match self.rng.below(20) {
            0 => vec![int(256)],
            1 => vec![],
            _ => vec![int(self.rng.below(5) as u64)],
        };
        apply(known, args)
    }

    fn address_of(&mut self, want: Want) -> PcodeExpr {
        let known = self.named(None);
        let size = if self.rng.percent(50) { Some(self.sized(want)) } else { None };
        address_of(size, known)
    }

    fn const_deref(&mut self, want: Want) -> PcodeExpr {
        let name = self.maker.name("const");
        let inner = if self.rng.percent(50) {
            int(self.rng.next() >> self.rng.below(60))
        } else {
            self.leaf(want)
        };
        let size = self.maybe_size(want);
        deref(Some(name), size, inner)
    }

    fn odd_expr(&mut self, want: Want, d: usize) -> PcodeExpr {
        match self.rng.below(4) {
            0 if self.noisy() => PcodeExpr::ConstantPoolRef { params: vec![self.expr(want, d)] },
            1 => {
                let name = self.any_name();
                apply(name, vec![self.expr(want, d)])
            }
            2 => var(self.any_name()),
            _ => truncate(self.slice(want, d), self.sized(want)),
        }
    }

    /// A name in scope, of the wanted size if there is one.
    pub fn named(&mut self, want: Want) -> Ident {
        let fits = |known: &&Known| want.is_none() || known.size.is_none() || known.size == want;
        let lists = [
            &self.registers,
            &self.locals,
            &self.params,
            &self.fields,
            &self.subtables,
            &self.bit_ranges,
        ];
        let all: Vec<Ident> = lists.into_iter().flatten().filter(fits).map(|k| k.name).collect();
        match self.rng.maybe_pick(&all) {
            Some(name) if !self.rng.percent(1) => name,
            _ => self.any_name(),
        }
    }

    pub fn leaf(&mut self, want: Want) -> PcodeExpr {
        match self.rng.below(20) {
            0..=2 => self.integer(),
            3..=5 => truncate(self.integer(), self.sized(want)),
            6 => {
                var(self.maker.name(if self.rng.percent(50) { "inst_next" } else { "inst_start" }))
            }
            7 => truncate(var(self.named(None)), self.sized(want)),
            _ => {
                let fits: Vec<Ident> =
                    self.registers.iter().filter(|k| k.size == want).map(|k| k.name).collect();
                match self.rng.maybe_pick(&fits) {
                    Some(name) if self.rng.percent(40) => var(name),
                    _ => var(self.named(want)),
                }
            }
        }
    }

    pub fn integer(&mut self) -> PcodeExpr {
        int(match self.rng.below(10) {
            0 => u64::MAX,
            1 => 0,
            2 => self.rng.next(),
            _ => self.rng.below(300) as u64,
        })
    }
}
