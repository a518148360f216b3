//! Whole sections. Statements are tried one at a time against the marked original, and one that
//! is refused is mostly taken back, so that a good share of the sections is accepted.

use section::Section;
use sleigh_parse::ast::Statement;

use super::world::{Known, World};
use crate::{maker::*, oracle};

/// How often a refused statement stays, in percent: at recorded errors, at anything else.
#[derive(Clone, Copy)]
pub struct Patience {
    pub recorded: usize,
    pub other: usize,
}

/// Lengths of the lists that a refused statement may have made longer.
struct Before {
    names: usize,
    locals: usize,
    labels: usize,
}

impl World {
    fn before(&self) -> Before {
        Before {
            names: self.maker.section.names.len(),
            locals: self.locals.len(),
            labels: self.labels.len(),
        }
    }

    fn take_back(&mut self, before: Before) {
        self.maker.section.names.truncate(before.names);
        self.locals.truncate(before.locals);
        self.labels.truncate(before.labels);
    }

    fn keeps(&mut self, number: u64, patience: Patience) -> bool {
        match number {
            0 => true,
            51 => self.rng.percent(patience.recorded),
            _ => self.rng.percent(patience.other),
        }
    }

    /// Adds up to `count` statements.
    pub fn fill(&mut self, count: usize, patience: Patience) {
        for _ in 0..2 * count {
            if self.maker.section.statements.len() >= count {
                return;
            }
            let before = self.before();
            let statement = self.statement();
            self.try_statement(statement, before, patience);
        }
    }

    fn try_statement(&mut self, statement: Statement, before: Before, patience: Patience) {
        self.maker.push(statement);
        let number = oracle::quick(&self.maker.section).0;
        if !self.keeps(number, patience) {
            self.maker.section.statements.pop();
            self.take_back(before);
        }
    }

    pub fn finish(&mut self, patience: Patience) {
        let before = self.before();
        let statement = self.export();
        self.try_statement(statement, before, patience);
    }

    /// Defines macros, each tried by a section that only calls it.
    pub fn define_macros(&mut self, count: usize, statements: usize, patience: Patience) {
        for i in 0..count {
            self.define_macro(&format!("m{i}"), statements, patience);
        }
    }

    fn define_macro(&mut self, text: &str, statements: usize, patience: Patience) {
        let outer = (
            std::mem::take(&mut self.locals),
            std::mem::take(&mut self.labels),
            std::mem::take(&mut self.fields),
            std::mem::take(&mut self.subtables),
        );
        let sizes = self.parameters();
        let params: Vec<_> = self.params.iter().map(|known| known.name).collect();
        let name = self.maker.define(text, params, vec![]);
        let probe = call(name, sizes.iter().map(|size| self.probe(*size)).collect());
        for _ in 0..statements {
            let before = self.before();
            let statement = self.statement();
            self.try_in_body((statement, before), &probe, patience);
        }
        if self.rng.percent(4) {
            let before = self.before();
            let statement = self.export();
            self.try_in_body((statement, before), &probe, patience);
        }
        self.params.clear();
        (self.locals, self.labels, self.fields, self.subtables) = outer;
        self.macros.push((name, sizes));
    }

    /// Parameters with the sizes that the body expects; two may have one name.
    fn parameters(&mut self) -> Vec<Option<u16>> {
        let count = self.rng.pick(&[0, 0, 1, 1, 2, 2, 3, 8]);
        for i in 0..count {
            let size = if self.rng.percent(80) { Some(self.size()) } else { None };
            let number = if self.rng.percent(5) { 0 } else { i };
            let odd = self.rng.pick(&["r0", "u0", "t0", "f0", "m0", "inst_next", "abs", "ram"]);
            let text = if self.rng.percent(6) { odd.into() } else { format!("p{number}") };
            let name = self.maker.name(&text);
            self.params.push(Known { name, size });
        }
        self.params.iter().map(|known| known.size).collect()
    }

    fn probe(&mut self, size: Option<u16>) -> sleigh_parse::ast::PcodeExpr {
        let fits = self.registers.iter().find(|known| known.size == size);
        match fits {
            Some(known) => var(known.name),
            None => truncate(int(5), size.unwrap_or(4)),
        }
    }

    fn try_in_body(&mut self, tried: (Statement, Before), probe: &Statement, patience: Patience) {
        let (statement, before) = tried;
        self.maker.section.macros.last_mut().unwrap().body.push(statement);
        let section = Section { statements: vec![probe.clone()], ..self.maker.section.clone() };
        let number = oracle::quick(&section).0;
        if !self.keeps(number, patience) {
            self.maker.section.macros.last_mut().unwrap().body.pop();
            self.take_back(before);
        }
    }
}
