//! Document 01's own sections, and that the judge answers as the document says.

use section::{read, write};
use sleigh_parse::ast::{BranchDst, JumpLabel, PcodeOp, Statement};

use crate::{
    maker::*,
    oracle,
    words::{Answer, ACTION},
};

/// Room for the examples' lists.
const LA: usize = 24 * 40;
const LT: usize = 40;

struct Example {
    text: &'static str,
    maker: Maker,
    right: fn(&Answer) -> bool,
}

fn example(text: &'static str, maker: Maker, right: fn(&Answer) -> bool) -> Example {
    Example { text, maker, right }
}

/// An action's operation, where its kind is Op.
fn operation(answer: &Answer, at: usize) -> Option<u64> {
    let row = &answer.actions[ACTION * at..ACTION * (at + 1)];
    (row[0] == 0).then_some(row[1])
}

/// A value word pair as kind, number and size.
fn value(answer: &Answer, action: usize, word: usize) -> (u64, u64, u64) {
    let row = &answer.actions[ACTION * action..ACTION * (action + 1)];
    (row[word + 1] & 255, row[word], row[word + 1] >> 24)
}

fn accepted(answer: &Answer) -> bool {
    answer.result[0] == 0
}

fn build_example() -> Maker {
    let mut m = Maker::with_ram();
    let a = m.table("a", None);
    m.table("b", None);
    m.subtable("a", 0);
    m.subtable("b", 1);
    m.push(Statement::Build { name: a });
    m
}

fn quoted(answer: &Answer) -> bool {
    answer.result[..8] == [0, 65_535, 1, 2, 0, 0, 0, 0]
        && answer.actions[..4] == [5, 0, 1, 0]
        && answer.actions[24..28] == [5, 0, 0, 0]
        && answer.actions[48..].iter().all(|w| *w == 0)
}

fn unsized_locals() -> Maker {
    let mut m = Maker::with_ram();
    let r4 = m.register("r4", 4);
    let names: Vec<_> = ["A", "B", "C", "D"].iter().map(|n| m.name(n)).collect();
    let inst_next = m.name("inst_next");
    names.iter().for_each(|n| m.push(local(*n, None)));
    let [a, b, c, d] = names[..] else { unreachable!() };
    for (to, from) in [(b, a), (c, d), (d, inst_next), (c, b), (a, r4)] {
        m.push(copy(var(to), var(from)));
    }
    m
}

/// C = D copies 8 bytes to 4.
fn eight_to_four(answer: &Answer) -> bool {
    accepted(answer)
        && answer.result[6] == 1
        && value(answer, 1, 4) == (6, 2, 4)
        && value(answer, 1, 6) == (6, 3, 8)
}

fn constant_slice(first: u16, count: u16) -> Maker {
    let mut m = Maker::with_ram();
    let x = m.name("x");
    m.push(copy(var(x), slice(int(0xABCD), first, count)));
    m
}

fn greater() -> Maker {
    let mut m = Maker::with_ram();
    let (r4, s4) = (m.register("r4", 4), m.register("s4", 4));
    let x = m.name("x");
    m.push(copy(var(x), op(var(r4), PcodeOp::IntGreater, var(s4))));
    m
}

fn less_swapped(answer: &Answer) -> bool {
    accepted(answer)
        && operation(answer, 0) == Some(12)
        && value(answer, 0, 6) == (2, 1, 4)
        && value(answer, 0, 8) == (2, 0, 4)
        && value(answer, 0, 4) == (6, 0, 1)
}

fn bit_write() -> Maker {
    let mut m = Maker::with_ram();
    let r4 = m.register("r4", 4);
    m.push(copy(slice(var(r4), 3, 2), int(1)));
    m
}

fn bit_written(answer: &Answer) -> bool {
    let order = [24, 43, 24, 7, 26];
    accepted(answer)
        && answer.result[3..5] == [5, 2]
        && (0..5).all(|i| operation(answer, i) == Some(order[i]))
}

fn labels(placed: usize) -> Maker {
    let mut m = Maker::with_ram();
    let l = m.name("l");
    m.push(jump(BranchDst::Label(l)));
    (0..placed).for_each(|_| m.push(label(l)));
    m
}

fn label_in_macro() -> Maker {
    let mut m = Maker::with_ram();
    let l = m.name("l");
    let body = m.define("m", vec![], vec![label(l)]);
    m.push(call(body, vec![]));
    m.push(call(body, vec![]));
    m
}

fn zero_and_one(answer: &Answer) -> bool {
    accepted(answer)
        && (answer.actions[1], answer.actions[2]) == (62, 0)
        && (answer.actions[25], answer.actions[26]) == (62, 1)
        && answer.result[5] == 2
}

fn jump_to_integer() -> Maker {
    let mut m = Maker::with_ram();
    m.push(jump(BranchDst::Direct(JumpLabel::Integer(16, 8))));
    m
}

/// A chain of macros, each calling the next.
pub fn depth(calls: usize) -> Maker {
    let mut m = Maker::with_ram();
    let names: Vec<_> = (0..calls).map(|i| m.name(&format!("m{i}"))).collect();
    for i in 0..calls {
        let body = names.get(i + 1).map(|next| call(*next, vec![]));
        m.define(&format!("m{i}"), vec![], body.into_iter().collect());
    }
    m.push(call(names[0], vec![]));
    m
}

/// Register accesses, an address and an export, whose words are given one by one.
fn accesses() -> Maker {
    let mut m = Maker::with_ram();
    let space = Some(m.space("reg", 1, 4));
    let (r4, s4, x) = (m.register("r4", 4), m.register("s4", 4), m.name("x"));
    m.push(copy(var(r4), deref(space, Some(4), var(s4))));
    m.push(Statement::Store { space, size: Some(4), pointer: var(s4), value: var(r4) });
    m.push(copy(var(x), address_of(None, r4)));
    m.push(Statement::Export { value: deref(None, Some(2), int(16)) });
    m
}

fn accessed(answer: &Answer) -> bool {
    const NONE: u64 = 65_535 << 24;
    const FOUR: u64 = 4 << 24;
    let rows: [&[u64]; 3] = [
        &[2, 0, 4, 1, 0, 2 + FOUR, 1, 2 + NONE],
        &[3, 0, 4, 2, 0, 0, 1, 2 + NONE, 0, 2 + FOUR],
        &[1, 0, 0, 1, 0, 6 + NONE, 0, 2 + NONE],
    ];
    let right = |i: usize| {
        let row = &answer.actions[ACTION * i..ACTION * (i + 1)];
        let (used, rest) = row.split_at(rows[i].len());
        used == rows[i] && rest.iter().all(|w| *w == 0)
    };
    (0..3).all(right)
        && answer.result == [0, 65_535, 4, 3, 1, 0, 1, 0, 2, 16, 7 + (8 << 24), 2]
        && answer.temporaries[0] == 8 + (65_535 << 16)
}

fn examples() -> Vec<Example> {
    vec![
        example("words of register accesses", accesses(), accessed),
        example("empty", Maker::with_ram(), |a| {
            a.result == [0, 65_535, 0, 0, 0, 0, 0, 0, 0, 0, 0, 0]
                && a.actions.iter().all(|w| *w == 0)
        }),
        example("build a of a, b", build_example(), quoted),
        example("unsized locals", unsized_locals(), eight_to_four),
        example("0xABCD[4,8] is 0xBC, size 1", constant_slice(4, 8), |a| {
            accepted(a) && value(a, 0, 6) == (7, 0xBC, 1)
        }),
        example("unsized constant [56,8]", constant_slice(56, 8), accepted),
        example("unsized constant [57,8]", constant_slice(57, 8), |a| a.result[..2] == [36, 0]),
        example("x = r4 > s4", greater(), less_swapped),
        example("r4[3,2] = 1", bit_write(), bit_written),
        example("a label never placed", labels(0), accepted),
        example("a label placed twice", labels(2), |a| a.result[..2] == [27, 2]),
        example("a label in a macro called twice", label_in_macro(), zero_and_one),
        example("direct jump to an integer", jump_to_integer(), |a| a.result[..2] == [29, 0]),
        example("macro depth 16", depth(16), accepted),
        example("macro depth 17", depth(17), |a| a.result[..2] == [11, 15]),
    ]
}

/// The examples that fail, each told on a line.
pub fn check() -> Vec<String> {
    let mut failed = vec![];
    for example in examples() {
        let section = &example.maker.section;
        let file = write::write(section);
        if read::read(&file).as_ref() != Ok(section) {
            failed.push(format!("{}: the file is not read back as it was written", example.text));
        }
        match oracle::judge(&file, LA, LT) {
            Ok(answer) if (example.right)(&answer) => {}
            Ok(answer) => failed.push(format!("{}: {:?}", example.text, answer.result)),
            Err(broken) => failed.push(format!("{}: {}", example.text, broken.0)),
        }
    }
    failed
}

pub fn count() -> usize {
    examples().len()
}
