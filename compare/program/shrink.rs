//! Makes a case smaller as long as it still shows what it showed.

use section::{names, read, write, Section};
use sleigh_parse::ast::{PcodeExpr, Statement};

use crate::{dump, generate::Case, words::ACTION};

type Shows<'a> = &'a dyn Fn(&Case) -> bool;

pub fn shrink(case: Case, shows: Shows) -> Case {
    let case = shrink_lengths(shrink_section(case, shows), shows);
    shrink_section(case, shows)
}

fn shrink_section(case: Case, shows: Shows) -> Case {
    let Ok(section) = read::read(&case.file) else { return case };
    let mut best = section;
    while let Some(smaller) = candidates(&best).into_iter().find(|s| shows(&with(s, &case))) {
        best = smaller;
    }
    let small = with(&best, &case);
    if shows(&small) {
        small
    } else {
        case
    }
}

/// Fewer lent words, an action or a temporary at a time.
fn shrink_lengths(case: Case, shows: Shows) -> Case {
    let mut best = case;
    loop {
        let (la, lt) = (best.la, best.lt);
        let tries = [(la.saturating_sub(ACTION), lt), (la, lt.saturating_sub(1))];
        let fits = tries.into_iter().filter(|t| *t != (la, lt));
        let mut cases = fits.map(|(la, lt)| Case { file: best.file.clone(), la, lt });
        match cases.find(|case| shows(case)) {
            Some(smaller) => best = smaller,
            None => return best,
        }
    }
}

fn with(section: &Section, case: &Case) -> Case {
    Case { file: write::write(section), la: case.la, lt: case.lt }
}

/// Every section that has one thing less, larger things first.
fn candidates(section: &Section) -> Vec<Section> {
    let mut out = vec![];
    without(section, |s| &mut s.macros, &mut out);
    without(section, |s| &mut s.statements, &mut out);
    for i in 0..section.macros.len() {
        without(section, move |s| &mut s.macros[i].body, &mut out);
    }
    without(section, |s| &mut s.subtables, &mut out);
    without(section, |s| &mut s.fields, &mut out);
    without(section, |s| &mut s.others, &mut out);
    without(section, |s| &mut s.user_ops, &mut out);
    without(section, |s| &mut s.bit_ranges, &mut out);
    without_tables(section, &mut out);
    without_registers(section, &mut out);
    without_spaces(section, &mut out);
    simpler_statements(section, &mut out);
    let all = 0..section.names.len() as u16;
    out.extend(all.rev().filter_map(|name| names::drop_name(section, name)));
    out
}

/// The section without one element of a list, for each element.
fn without<T>(
    section: &Section,
    list: impl Fn(&mut Section) -> &mut Vec<T>,
    out: &mut Vec<Section>,
) {
    let count = list(&mut section.clone()).len();
    for i in (0..count).rev() {
        let mut less = section.clone();
        list(&mut less).remove(i);
        out.push(less);
    }
}

/// Tables, registers and spaces are referred to by their place, so the places after move up.
fn without_tables(section: &Section, out: &mut Vec<Section>) {
    for i in 0..section.tables.len() as u16 {
        let mut less = section.clone();
        less.tables.remove(i as usize);
        less.subtables.iter_mut().for_each(|s| s.table -= (s.table > i) as u16);
        out.push(less);
    }
}

fn without_registers(section: &Section, out: &mut Vec<Section>) {
    for i in 0..section.registers.len() as u16 {
        let mut less = section.clone();
        less.registers.remove(i as usize);
        less.bit_ranges.iter_mut().for_each(|b| b.register -= (b.register > i) as u16);
        out.push(less);
    }
}

fn without_spaces(section: &Section, out: &mut Vec<Section>) {
    for i in 0..section.spaces.len() as u16 {
        let mut less = section.clone();
        less.spaces.remove(i as usize);
        less.default_space = less.default_space.map(|s| s - (s > i) as u16);
        out.push(less);
    }
}

fn simpler_statements(section: &Section, out: &mut Vec<Section>) {
    for i in 0..section.statements.len() {
        for statement in simpler(&section.statements[i]) {
            let mut less = section.clone();
            less.statements[i] = statement;
            out.push(less);
        }
    }
    for m in 0..section.macros.len() {
        for i in 0..section.macros[m].body.len() {
            for statement in simpler(&section.macros[m].body[i]) {
                let mut less = section.clone();
                less.macros[m].body[i] = statement;
                out.push(less);
            }
        }
    }
}

fn simpler(statement: &Statement) -> Vec<Statement> {
    let mut out = vec![];
    for i in 0..exprs(&mut statement.clone()).len() {
        let expr = exprs(&mut statement.clone())[i].clone();
        for part in simpler_expr(&expr) {
            let mut less = statement.clone();
            *exprs(&mut less)[i] = part;
            out.push(less);
        }
    }
    out
}

fn exprs(statement: &mut Statement) -> Vec<&mut PcodeExpr> {
    match statement {
        Statement::Export { value } => vec![value],
        Statement::LocalAssignment { expr, .. } => vec![expr],
        Statement::Copy { from, to } => vec![from, to],
        Statement::Store { pointer, value, .. } => vec![pointer, value],
        Statement::Call(call) => call.args.iter_mut().collect(),
        Statement::CondBranch { cond, .. } => vec![cond],
        _ => vec![],
    }
}

/// Each part in the expression's place, then the expression with one part made simpler.
fn simpler_expr(expr: &PcodeExpr) -> Vec<PcodeExpr> {
    let parts: Vec<PcodeExpr> = inner(&mut expr.clone()).into_iter().map(|e| e.clone()).collect();
    let mut out = parts.clone();
    for (i, part) in parts.iter().enumerate() {
        for less in simpler_expr(part) {
            let mut whole = expr.clone();
            *inner(&mut whole)[i] = less;
            out.push(whole);
        }
    }
    out
}

fn inner(expr: &mut PcodeExpr) -> Vec<&mut PcodeExpr> {
    match expr {
        PcodeExpr::Truncate { value, .. } | PcodeExpr::SliceBits { value, .. } => vec![value],
        PcodeExpr::Op { a, b, .. } => vec![a, b],
        PcodeExpr::Deref { pointer, .. } => vec![pointer],
        PcodeExpr::ConstantPoolRef { params } => params.iter_mut().collect(),
        PcodeExpr::Call(call) => call.args.iter_mut().collect(),
        _ => vec![],
    }
}

/// A case as lines: its lengths, its bytes, and what is in it if it can be read.
pub fn describe(case: &Case) -> Vec<String> {
    let mut lines = vec![
        format!("{} and {} words lent", case.la, case.lt),
        format!("length, bytes, last two bytes: {}", dump::file_text(&case.file)),
    ];
    let Ok(section) = read::read(&case.file) else { return lines };
    for (i, name) in section.names.iter().enumerate() {
        lines.push(format!("n{i} is {:?}", String::from_utf8_lossy(name)));
    }
    lines.push(format!("{:?}", Section { names: vec![], ..section.clone() }));
    let ready = sleigh_compile::door::Ready::new(&section);
    for run in ready.runs() {
        for (i, statement) in run.statements.iter().enumerate() {
            lines.push(format!("{}: {}", run.first + i, ready.show(statement)));
        }
    }
    lines
}
