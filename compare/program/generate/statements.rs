//! Statements, most of which fit what is in scope.

use sleigh_parse::ast::{BranchDst, BranchHint, Ident, JumpLabel, PcodeExpr, Statement};

use super::{
    exprs::Want,
    world::{Known, World},
};
use crate::maker::*;

impl World {
    pub fn statement(&mut self) -> Statement {
        let depth = self.rng.below(self.style.depth + 1);
        match self.rng.weighted(&[22, 14, 10, 7, 6, 6, 14, 9, 4, 5, 9, 2, 6, 6, 5, 2]) {
            0 => self.to_register(depth),
            1 => self.to_local(depth),
            2 => self.to_fresh(depth),
            3 => self.to_bits(depth),
            4 => self.to_ram(depth),
            5 => self.declare(),
            6 => self.assign(depth),
            7 => self.store(depth),
            8 => self.build(),
            9 => self.call_user_op(depth),
            10 => self.call_macro(depth),
            11 => call(self.maker.name("delayslot"), vec![int(1)]),
            12 => Statement::Branch { dst: self.target(), hint: self.hint() },
            13 => self.branch_if(depth),
            14 => label(self.label_name(true)),
            _ => Statement::Unimplemented,
        }
    }

    fn to_register(&mut self, depth: usize) -> Statement {
        let target = self.rng.pick(&self.registers);
        copy(var(target.name), self.expr(target.size, depth))
    }

    fn to_local(&mut self, depth: usize) -> Statement {
        let known: Vec<Known> = self.locals.iter().chain(&self.params).copied().collect();
        match self.rng.maybe_pick(&known) {
            Some(target) => copy(var(target.name), self.expr(target.size, depth)),
            None => self.to_fresh(depth),
        }
    }

    /// A target that is declared by being assigned, bare or truncated.
    fn to_fresh(&mut self, depth: usize) -> Statement {
        let size = self.size();
        let from = self.expr(Some(size), depth);
        let name = self.fresh();
        if self.rng.percent(40) {
            self.locals.push(Known { name, size: Some(size) });
            return copy(truncate(var(name), size), from);
        }
        self.locals.push(Known { name, size: None });
        copy(var(name), from)
    }

    fn to_bits(&mut self, depth: usize) -> Statement {
        let from = self.expr(Some(1), depth);
        let range = self.rng.maybe_pick(&self.bit_ranges);
        let to = match (self.rng.below(4), range) {
            (0..=1, Some(range)) => var(range.name),
            (2, _) => slice(var(self.named(None)), 8 * self.rng.below(3) as u16, 8),
            _ => {
                slice(var(self.named(None)), self.rng.below(30) as u16, self.rng.range(1, 8) as u16)
            }
        };
        copy(to, from)
    }

    fn to_ram(&mut self, depth: usize) -> Statement {
        let size = self.size();
        let (space, pointer) = (self.some_space(), self.pointer());
        let size_given = self.maybe_size(Some(size));
        let to = deref(space, size_given, self.expr(pointer, depth));
        copy(to, self.expr(Some(size), depth))
    }

    fn local_size(&mut self) -> Want {
        if self.rng.percent(self.style.unsized_locals) {
            None
        } else {
            Some(self.size())
        }
    }

    fn declare(&mut self) -> Statement {
        let (name, size) = (self.fresh(), self.local_size());
        self.locals.push(Known { name, size });
        local(name, size)
    }

    fn assign(&mut self, depth: usize) -> Statement {
        let size = self.local_size();
        let expr = self.expr(size, depth);
        let name = self.fresh();
        self.locals.push(Known { name, size });
        Statement::LocalAssignment { name, size, expr }
    }

    fn store(&mut self, depth: usize) -> Statement {
        let size = self.size();
        let (space, pointer) = (self.some_space(), self.pointer());
        Statement::Store {
            space,
            size: self.maybe_size(Some(size)),
            pointer: self.expr(pointer, depth.min(1)),
            value: self.expr(Some(size), depth),
        }
    }

    fn build(&mut self) -> Statement {
        let name = self.rng.maybe_pick(&self.tables);
        Statement::Build { name: name.unwrap_or_else(|| self.named(None)) }
    }

    fn call_user_op(&mut self, depth: usize) -> Statement {
        let Some(name) = self.rng.maybe_pick(&self.user_ops) else { return self.store(depth) };
        let count = self.rng.range(0, 8);
        let args = (0..count).map(|_| self.any_sized(depth.min(1))).collect();
        call(name, args)
    }

    fn any_sized(&mut self, depth: usize) -> PcodeExpr {
        let size = self.size();
        self.expr(Some(size), depth)
    }

    pub fn call_macro(&mut self, depth: usize) -> Statement {
        if self.macros.is_empty() {
            return self.to_local(depth);
        }
        let (name, sizes) = self.macros[self.rng.below(self.macros.len())].clone();
        let mut args: Vec<PcodeExpr> =
            sizes.iter().map(|size| self.expr(*size, depth.min(2))).collect();
        if self.noisy() && self.rng.percent(30) {
            args.pop();
        }
        call(name, args)
    }

    fn hint(&mut self) -> BranchHint {
        match self.rng.below(3) {
            0 => BranchHint::Jump,
            1 => BranchHint::Call,
            _ => BranchHint::Return,
        }
    }

    fn target(&mut self) -> BranchDst {
        let pointer = self.pointer();
        match self.rng.below(10) {
            0..=3 => BranchDst::Label(self.label_name(false)),
            4..=6 => BranchDst::Direct(JumpLabel::Ident(self.named(pointer))),
            7..=8 => BranchDst::Indirect(JumpLabel::Ident(self.named(pointer))),
            _ => BranchDst::Indirect(JumpLabel::Integer(self.rng.next(), self.size())),
        }
    }

    fn branch_if(&mut self, depth: usize) -> Statement {
        let cond = self.expr(Some(1), depth);
        Statement::CondBranch { cond, dst: self.target(), hint: self.hint() }
    }

    /// A label already used, or a new one; a placed label is mostly new.
    fn label_name(&mut self, placed: bool) -> Ident {
        let again = if placed { 45 } else { 70 };
        match self.rng.maybe_pick(&self.labels) {
            Some(name) if self.rng.percent(again) => name,
            _ => {
                let name = self.maker.name(&format!("l{}", self.labels.len()));
                self.labels.push(name);
                name
            }
        }
    }

    /// An export of any kind: a value, an address in RAM or in a register space.
    pub fn export(&mut self) -> Statement {
        let value = match self.rng.below(4) {
            0 => {
                let pointer = self.pointer();
                let (space, size) = (self.some_space(), self.maybe_size(None));
                deref(space, size, self.expr(pointer, 1))
            }
            1 => var(self.named(None)),
            _ => self.any_sized(self.style.depth.min(2)),
        };
        Statement::Export { value }
    }
}
