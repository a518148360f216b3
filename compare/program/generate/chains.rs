//! Sizes that travel: many unsized locals in copies and operations, and few things that are sized.

use sleigh_parse::ast::{BranchDst, BranchHint, Ident, JumpLabel, PcodeExpr, Statement};

use super::{
    exprs::{ARITHMETIC, BOOLEANS, COMPARISONS, EQUAL, FREE, SHIFTS},
    world::World,
};
use crate::{maker::*, oracle};

impl World {
    pub fn chain(&mut self, locals: usize, statements: usize) {
        let names: Vec<Ident> = (0..locals).map(|i| self.maker.name(&format!("c{i}"))).collect();
        for name in &names {
            let size = if self.rng.percent(8) { Some(self.size()) } else { None };
            self.maker.push(local(*name, size));
        }
        for _ in 0..statements {
            let statement = self.link(&names);
            self.maker.push(statement);
            let (number, _) = oracle::quick(&self.maker.section);
            if number != 0 && number != 51 {
                self.maker.section.statements.pop();
            }
        }
        self.settle(&names);
    }

    /// While sizes are unknown or do not agree, a statement is added or taken away.
    fn settle(&mut self, names: &[Ident]) {
        for _ in 0..8 {
            if oracle::quick(&self.maker.section).0 == 0 {
                return;
            }
            let count = self.maker.section.statements.len();
            match self.rng.below(3) {
                0 if count > names.len() => {
                    let at = self.rng.range(names.len(), count - 1);
                    self.maker.section.statements.remove(at);
                }
                1 => {
                    let at = self.rng.range(names.len(), count);
                    let statement = self.sized_link(names);
                    self.maker.section.statements.insert(at, statement);
                }
                _ => {
                    let statement = self.sized_link(names);
                    self.maker.push(statement);
                }
            }
        }
    }

    fn sized_link(&mut self, names: &[Ident]) -> Statement {
        let to = var(self.rng.pick(names));
        let size = self.rng.pick(&[1, 4, 4, 8]);
        match self.rng.below(3) {
            0 => copy(to, var(self.maker.name("inst_next"))),
            1 => copy(to, var(self.rng.pick(&self.registers).name)),
            _ => copy(to, truncate(self.integer(), size)),
        }
    }

    fn link(&mut self, names: &[Ident]) -> Statement {
        let (to, a, b) = (self.part(names), self.part(names), self.part(names));
        match self.rng.weighted(&[30, 12, 6, 6, 4, 5, 5, 5, 4, 3, 3, 3]) {
            0 => copy(to, a),
            1 => copy(to, op(a, self.one_of(&ARITHMETIC), b)),
            2 => copy(to, op(a, self.one_of(&SHIFTS), b)),
            3 => copy(to, op(a, self.one_of(&COMPARISONS), b)),
            4 => copy(to, op(a, self.one_of(&BOOLEANS), b)),
            5 => copy(to, apply(self.spelled(&EQUAL), vec![a])),
            6 => copy(to, apply(self.spelled(&FREE), vec![a])),
            7 => copy(to, deref(None, self.rng.pick(&[None, Some(0), Some(4)]), a)),
            8 => Statement::Store { space: None, size: None, pointer: a, value: b },
            9 => self.jump_to(names, a),
            10 => copy(to, apply(self.rng.pick(names), vec![int(self.rng.below(3) as u64)])),
            _ => self.sized_link(names),
        }
    }

    fn spelled(&mut self, texts: &[&str]) -> Ident {
        let text = self.rng.pick(texts);
        self.maker.name(text)
    }

    fn jump_to(&mut self, names: &[Ident], cond: PcodeExpr) -> Statement {
        let name = self.rng.pick(names);
        let dst = BranchDst::Indirect(JumpLabel::Ident(name));
        Statement::CondBranch { cond, dst, hint: BranchHint::Jump }
    }

    /// A local most of the time; else something with a fallback size, or a piece of a local.
    fn part(&mut self, names: &[Ident]) -> PcodeExpr {
        let name = self.rng.pick(names);
        match self.rng.below(20) {
            0 => var(self.maker.name("inst_start")),
            1 => slice(var(name), 8 * self.rng.below(3) as u16, 8 * self.rng.range(1, 4) as u16),
            2 => slice(var(name), self.rng.range(1, 9) as u16, self.rng.range(1, 9) as u16),
            3 => truncate(var(name), self.rng.pick(&[1, 2, 4, 8])),
            4 => var(self.named(None)),
            _ => var(name),
        }
    }
}
