//! What a set of cases reaches: refusals, statements, expressions, operators, operations.

use std::collections::BTreeMap;

use section::{read, Section};
use sleigh_parse::ast::{PcodeExpr, Statement};

use crate::words::{Answer, ACTION};

#[derive(Default)]
pub struct Coverage {
    pub refusals: BTreeMap<u64, u64>,
    pub features: BTreeMap<String, u64>,
    pub files: u64,
}

/// Every number that a file can be refused with; 31 is reached by none.
pub const REFUSALS: [u64; 36] = [
    1, 2, 3, 4, 5, 6, 10, 11, 12, 13, 14, 20, 21, 22, 23, 24, 25, 26, 27, 28, 29, 30, 32, 33, 34,
    35, 36, 37, 38, 39, 40, 41, 42, 50, 51, 0,
];

impl Coverage {
    pub fn add(&mut self, features: &[String], answer: &Answer) {
        self.files += 1;
        *self.refusals.entry(answer.result[0]).or_default() += 1;
        for feature in features {
            *self.features.entry(feature.clone()).or_default() += 1;
        }
    }

    pub fn missing(&self) -> Vec<u64> {
        let reached = |number: &u64| self.refusals.contains_key(number);
        REFUSALS.into_iter().filter(|n| !reached(n)).collect()
    }
}

/// What a case has, in words. Where it is accepted, its statements and expressions count apart.
pub fn features(file: &[u8], answer: &Answer) -> Vec<String> {
    let mut list = vec![format!("answer {}", answer.result[0])];
    if answer.result[..2] == [12, 65_535] {
        list.push("answer 12 at the start".into());
    }
    if answer.result[0] == 0 {
        list.push(format!("export {}", answer.result[8]));
        operations(answer, &mut list);
    }
    if let Ok(section) = read::read(file) {
        let head = if answer.result[0] == 0 { "accepted " } else { "refused " };
        syntax(&section).into_iter().for_each(|item| list.push(format!("{head}{item}")));
    }
    list.sort();
    list.dedup();
    list
}

fn operations(answer: &Answer, list: &mut Vec<String>) {
    for row in answer.actions.chunks_exact(ACTION).take(answer.result[3] as usize) {
        list.push(match row[0] {
            0 => format!("operation {}", row[1]),
            kind => format!("action kind {kind}"),
        });
        for input in 0..row[3] as usize {
            let word = row[7 + 2 * input];
            list.push(format!("input kind {}", word & 255));
            if word >> 8 & 65_535 > 60_000 {
                list.push("input of a far offset".into());
            }
        }
    }
}

fn syntax(section: &Section) -> Vec<String> {
    let mut list = vec![];
    let bodies = section.macros.iter().flat_map(|def| &def.body);
    for statement in bodies.chain(&section.statements) {
        let text = format!("{statement:?}");
        let end = text.find(['(', ' ']).unwrap_or(text.len());
        list.push(format!("statement {}", &text[..end]));
        parts(statement).into_iter().for_each(|expr| expressions(section, expr, &mut list));
    }
    list
}

fn parts(statement: &Statement) -> Vec<&PcodeExpr> {
    match statement {
        Statement::Export { value } => vec![value],
        Statement::LocalAssignment { expr, .. } => vec![expr],
        Statement::Copy { from, to } => vec![from, to],
        Statement::Store { pointer, value, .. } => vec![pointer, value],
        Statement::Call(call) => call.args.iter().collect(),
        Statement::CondBranch { cond, .. } => vec![cond],
        _ => vec![],
    }
}

fn expressions(section: &Section, expr: &PcodeExpr, list: &mut Vec<String>) {
    let (kind, inner): (String, Vec<&PcodeExpr>) = match expr {
        PcodeExpr::Ident { .. } => ("Ident".into(), vec![]),
        PcodeExpr::Integer { .. } => ("Integer".into(), vec![]),
        PcodeExpr::AddressOf { .. } => ("AddressOf".into(), vec![]),
        PcodeExpr::Truncate { value, .. } => ("Truncate".into(), vec![value]),
        PcodeExpr::SliceBits { value, .. } => ("SliceBits".into(), vec![value]),
        PcodeExpr::Op { a, op, b } => (format!("{op:?}"), vec![a, b]),
        PcodeExpr::Deref { pointer, .. } => ("Deref".into(), vec![pointer]),
        PcodeExpr::ConstantPoolRef { params } => {
            ("ConstantPoolRef".into(), params.iter().collect())
        }
        PcodeExpr::Call(call) => (called(section, call), call.args.iter().collect()),
    };
    list.push(format!("expression {kind}"));
    inner.into_iter().for_each(|part| expressions(section, part, list));
}

fn called(section: &Section, call: &sleigh_parse::ast::PcodeCall) -> String {
    let name = section::index(call.name);
    if section.user_ops.contains(&name) {
        return format!("user op of {}", call.args.len());
    }
    match std::str::from_utf8(&section.names[name as usize]) {
        Ok(text) if BUILT_IN.contains(&text) => format!("call {text}"),
        _ => "subpiece".into(),
    }
}

const BUILT_IN: [&str; 22] = [
    "!",
    "~",
    "-",
    "nan",
    "carry",
    "scarry",
    "sborrow",
    "zext",
    "zxt",
    "sext",
    "f-",
    "abs",
    "sqrt",
    "ceil",
    "floor",
    "round",
    "trunc",
    "int2float",
    "uint2float",
    "float2float",
    "popcount",
    "lzcount",
];
