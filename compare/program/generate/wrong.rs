//! For each refusal of a statement, something that brings it about.

use sleigh_parse::ast::{BranchDst, Ident, JumpLabel, PcodeExpr, PcodeOp, Statement};

use super::world::World;
use crate::maker::*;

/// The refusals that `World::wrong` knows. 31 is reached by no file.
pub const NUMBERS: [u64; 27] = [
    20, 21, 22, 23, 24, 25, 26, 27, 28, 29, 30, 32, 33, 34, 35, 36, 37, 38, 39, 40, 41, 42, 50, 51,
    11, 10, 14,
];

impl World {
    fn r(&self, i: usize) -> Ident {
        self.registers[i].name
    }

    fn sum(&self) -> PcodeExpr {
        op(var(self.r(0)), PcodeOp::IntAdd, var(self.r(1)))
    }

    fn spare(&mut self, text: &str) -> Ident {
        self.maker.name(text)
    }

    /// Adds statements (and what they need) that are refused with this number, unless something
    /// before is.
    pub fn wrong(&mut self, number: u64) {
        match number {
            20..=28 => self.wrong_statement(number),
            29..=39 => self.wrong_expression(number),
            40..=42 => self.wrong_panic(number),
            50 | 51 => self.wrong_end(number),
            _ => self.wrong_limit(number),
        }
    }

    fn wrong_statement(&mut self, number: u64) {
        let r0 = self.r(0);
        let statements = match number {
            20 => vec![Statement::Export { value: var(r0) }, self.statement()],
            21 => {
                let name = self.spare("w");
                vec![local(name, Some(4)), local(name, None)]
            }
            22 => vec![self.undefined()],
            23 => vec![self.wrong_kind()],
            24 => {
                self.maker.table("tw", Some(4));
                vec![Statement::Build { name: self.spare("tw") }]
            }
            25 => {
                let args = self.rng.pick(&[0, 1, 2]);
                let args = (0..args).map(|_| int(2)).collect();
                vec![call(self.spare("delayslot"), args)]
            }
            26 => {
                let name = self.maker.define("mw", vec![r0], vec![]);
                vec![call(name, vec![])]
            }
            27 => {
                let name = self.spare("lw");
                vec![label(name), label(name)]
            }
            _ => {
                let space = Some(self.spare("const"));
                vec![Statement::Store { space, size: None, pointer: var(r0), value: int(1) }]
            }
        };
        statements.into_iter().for_each(|s| self.maker.push(s));
    }

    fn undefined(&mut self) -> Statement {
        let (name, r0) = (self.spare("nope"), self.r(0));
        match self.rng.below(6) {
            0 => copy(var(r0), var(name)),
            1 => call(name, vec![]),
            2 => Statement::Build { name },
            3 => copy(var(r0), deref(Some(name), None, var(r0))),
            4 => jump(direct(name)),
            _ => copy(var(r0), apply(name, vec![int(0)])),
        }
    }

    fn wrong_kind(&mut self) -> Statement {
        let (other, r0) = (self.maker.other("ow"), self.r(0));
        match self.rng.below(6) {
            0 => copy(var(r0), var(other)),
            1 => call(other, vec![]),
            2 => Statement::Build { name: other },
            3 => copy(var(r0), deref(Some(other), None, var(r0))),
            4 => copy(var(r0), var(self.ram)),
            _ => call(r0, vec![]),
        }
    }

    fn wrong_expression(&mut self, number: u64) {
        let (r0, sum) = (self.r(0), self.sum());
        let to = var(r0);
        let statement = match number {
            29 => jump(BranchDst::Direct(JumpLabel::Integer(16, 8))),
            30 => copy(to, address_of(None, self.maker.bit_range("bw", 0, 0, 8))),
            32 => copy(to, PcodeExpr::ConstantPoolRef { params: vec![sum] }),
            33 => self.wrong_count(),
            34 => copy(to, apply(self.maker.define("mw", vec![], vec![]), vec![])),
            35 => {
                let args = self.rng.pick(&[0usize, 1, 2, 3]);
                let args =
                    [vec![], vec![int(256)], vec![var(r0)], vec![int(1), int(1)]][args].clone();
                copy(to, apply(r0, args))
            }
            36 => copy(to, self.past_end()),
            37 => copy(self.not_assignable(), to),
            38 => copy(to, deref(Some(self.spare("const")), None, sum)),
            _ => {
                self.maker.section.default_space = None;
                copy(to, deref(None, Some(4), var(r0)))
            }
        };
        self.maker.push(statement);
    }

    fn wrong_count(&mut self) -> Statement {
        let name = self.rng.pick(&[
            "!", "nan", "carry", "sborrow", "zext", "zxt", "f-", "lzcount", "scarry", "~", "-",
        ]);
        let name = self.spare(name);
        let count = self.rng.pick(&[0, 3, 8]);
        let r0 = self.r(0);
        copy(var(r0), apply(name, vec![var(r0); count]))
    }

    fn past_end(&mut self) -> PcodeExpr {
        let r0 = self.r(0);
        match self.rng.below(3) {
            0 => slice(int(5), 57, 8),
            1 => slice(truncate(int(5), 1), 1, 8),
            _ => slice(slice(var(r0), 3, 8), 1, 8),
        }
    }

    fn not_assignable(&mut self) -> PcodeExpr {
        let sum = self.sum();
        match (self.rng.below(4), self.register_space) {
            (0, _) => int(1),
            (1, Some(space)) => deref(Some(space), Some(4), var(self.r(0))),
            (2, _) => slice(sum, 0, 8),
            _ => sum,
        }
    }

    fn wrong_panic(&mut self, number: u64) {
        let r0 = self.r(0);
        match number {
            40 => {
                let space = self.maker.space("ow", 2, 2);
                self.maker.push(copy(var(r0), deref(Some(space), Some(4), var(r0))));
            }
            41 => {
                let space = self.spare("const");
                let statement = match self.rng.below(3) {
                    0 => copy(var(r0), slice(int(5), 64, 0)),
                    1 => copy(var(r0), slice(deref(Some(space), Some(16), int(5)), 64, 8)),
                    _ => copy(slice(var(r0), 65, 3), int(1)),
                };
                self.maker.push(statement);
            }
            _ => self.far_offset(),
        }
    }

    /// Slices of an operation's result add up through a macro that calls itself.
    fn far_offset(&mut self) {
        if self.rng.percent(50) {
            return self.far_subpiece();
        }
        let (name, p) = (self.spare("mw"), self.spare("p"));
        let far = (0..self.rng.range(5, 9)).fold(var(p), |e, _| slice(e, 8_192, 8));
        self.maker.define("mw", vec![p], vec![call(name, vec![far])]);
        let sum = self.sum();
        self.maker.push(call(name, vec![sum]));
    }

    /// The offset is just below the end, and a subpiece goes past it when the list is finished.
    fn far_subpiece(&mut self) {
        let (p, x) = (self.spare("p"), self.spare("x"));
        let mut next = None;
        for i in 0..3 {
            let far = (0..21).fold(var(p), |e, _| slice(e, 8_192, 8));
            let body = match next {
                None => copy(truncate(var(x), 1), apply(p, vec![int(255)])),
                Some(name) => call(name, vec![far]),
            };
            next = Some(self.maker.define(&format!("mw{i}"), vec![p], vec![body]));
        }
        let far = (0..21).fold(self.sum(), |e, _| slice(e, 8_192, 8));
        let far = slice(far, self.rng.pick(&[8_184, 6_144, 6_136, 6_152]), 8);
        self.maker.push(call(next.unwrap(), vec![far]));
    }

    fn wrong_end(&mut self, number: u64) {
        let (r0, x, y) = (self.r(0), self.spare("xw"), self.spare("yw"));
        let statement = match (number, self.rng.below(3)) {
            (50, _) => copy(var(x), apply(r0, vec![int(0)])),
            (_, 0) => copy(var(r0), truncate(int(1), 3)),
            (_, 1) => {
                self.maker.push(local(y, None));
                copy(var(x), var(y))
            }
            _ => Statement::Export { value: apply(self.maker.user_op("uw"), vec![]) },
        };
        self.maker.push(statement);
    }

    fn wrong_limit(&mut self, number: u64) {
        let (levels, leaf) = match number {
            10 => (self.rng.range(12, 13), vec![]),
            14 => (9, vec![label(self.spare("lw"))]),
            _ => {
                let name = self.spare("mw");
                self.maker.define("mw", vec![], vec![call(name, vec![])]);
                return self.maker.push(call(name, vec![]));
            }
        };
        self.doubling(levels, leaf);
    }

    /// Macros that each call the one before twice: many statements from few bytes.
    fn doubling(&mut self, levels: usize, leaf: Vec<Statement>) {
        let mut name = self.maker.define("d0", vec![], leaf);
        for i in 1..=levels {
            let twice = vec![call(name, vec![]), call(name, vec![])];
            name = self.maker.define(&format!("d{i}"), vec![], twice);
        }
        self.maker.push(call(name, vec![]));
    }
}

impl World {
    /// Moves the statements from a place on into a macro, and its call into another one.
    pub fn into_macros(&mut self, from: usize, levels: usize) {
        for i in 0..levels {
            let body = self.maker.section.statements.split_off(from);
            let name = self.maker.define(&format!("z{i}"), vec![], body);
            self.maker.push(call(name, vec![]));
        }
    }
}
