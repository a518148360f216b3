//! Sections that lie exactly at a limit, or one past it.

use section::Section;
use sleigh_parse::ast::{PcodeExpr, PcodeOp};

use crate::{examples, maker::*, rng::Rng};

pub fn edge(rng: &mut Rng) -> Section {
    let over = rng.below(2);
    let maker = match rng.below(11) {
        0 => statements(over, rng),
        1 => temporaries(512 + over, rng),
        2 => labels(256 + over, rng),
        3 => examples::depth(16 + over),
        4 => nested(32 + over, rng),
        5 => full_lists(over),
        6 => large_sizes(over, rng),
        7 => deep_macro_args(rng),
        8 => long_list(over, rng),
        9 => many_args(over, rng),
        _ => many_names(rng),
    };
    maker.section
}

/// 4,096 or 4,097 statements: calls of a macro of calls of an empty macro.
fn statements(over: usize, rng: &mut Rng) -> Maker {
    let mut m = Maker::with_ram();
    let r = m.register("r", 4);
    let empty = m.define("e", vec![], vec![]);
    let push = rng.percent(30);
    let inner = if push { copy(var(r), var(r)) } else { call(empty, vec![]) };
    let outer = m.define("o", vec![], vec![inner; 7]);
    (0..512).for_each(|_| m.push(call(outer, vec![])));
    (0..over).for_each(|_| m.push(call(empty, vec![])));
    m
}

fn temporaries(count: usize, rng: &mut Rng) -> Maker {
    let mut m = Maker::with_ram();
    let names: Vec<_> = (0..8).map(|i| m.name(&format!("x{i}"))).collect();
    let size = rng.pick(&[None, Some(4)]);
    let eight = m.define("m", vec![], names.iter().map(|n| local(*n, size)).collect());
    (0..count / 8).for_each(|_| m.push(call(eight, vec![])));
    (0..count % 8).for_each(|i| m.push(local(names[i], size)));
    m
}

fn labels(count: usize, rng: &mut Rng) -> Maker {
    let mut m = Maker::with_ram();
    let l = m.name("l");
    let jumped = jump(sleigh_parse::ast::BranchDst::Label(l));
    let body =
        if rng.percent(50) { vec![label(l)] } else { vec![jumped.clone(), label(l), jumped] };
    let one = m.define("m", vec![], body);
    (0..count).for_each(|_| m.push(call(one, vec![])));
    m
}

/// An expression that is so many deep, a lone name being 1.
fn nested(depth: usize, rng: &mut Rng) -> Maker {
    let mut m = Maker::with_ram();
    let r = m.register("r", 4);
    let (u, not) = (m.user_op("u"), m.name("~"));
    let kind = rng.below(5);
    let expr = (1..depth).fold(var(r), |e, _| match kind {
        0 => op(var(r), PcodeOp::IntAdd, e),
        1 => op(e, PcodeOp::IntXor, var(r)),
        2 => apply(u, vec![int(1), e]),
        3 => truncate(e, 4),
        _ => apply(not, vec![e]),
    });
    if rng.percent(30) {
        m.push(call(u, vec![var(r), expr]));
    } else if rng.percent(30) {
        m.define("m", vec![], vec![copy(var(r), expr)]);
    } else {
        m.push(copy(var(r), expr));
    }
    m
}

/// Every list at its largest count, or one of them one past it.
fn full_lists(over: usize) -> Maker {
    let mut m = Maker::with_ram();
    (1..8).for_each(|i| {
        m.space(&format!("sp{i}"), 0, 8);
    });
    (0..256).for_each(|i| {
        m.table(&format!("t{i}"), Some(4));
    });
    (0..256).for_each(|i| {
        m.user_op(&format!("u{i}"));
    });
    (0..128).for_each(|i| {
        m.define(&format!("m{i}"), vec![], vec![]);
    });
    (0..64).for_each(|i| {
        m.field(&format!("f{i}"), None);
    });
    (0..32 + over).for_each(|i| {
        m.subtable(&format!("t{i}"), i as u16);
    });
    let u = m.name("u255");
    m.push(call(u, vec![]));
    m
}

fn large_sizes(over: usize, rng: &mut Rng) -> Maker {
    let mut m = Maker::with_ram();
    let which = rng.below(4);
    let extra = |i: usize| if i == which { over as u16 } else { 0 };
    let r = m.register("r", 1_024 + extra(0));
    m.bit_range("b", 0, 8_192 + extra(1), 8_192 + extra(2));
    let x = m.name("x");
    m.push(copy(truncate(var(x), 1_024 + extra(3)), var(r)));
    m
}

/// One of the longer lists at its largest count or one past it.
fn long_list(over: usize, rng: &mut Rng) -> Maker {
    let mut m = Maker::with_ram();
    let (r, l) = (m.register("r", 4), m.name("l"));
    let count = 1_024 + over;
    match rng.below(8) {
        0 => (m.section.names.len()..count).for_each(|i| {
            m.name(&format!("n{i}"));
        }),
        1 => (1..1_015 + over).for_each(|i| {
            m.register(&format!("n{i}"), 4);
        }),
        2 => (0..1_015 + over).for_each(|i| {
            m.bit_range(&format!("n{i}"), 0, 0, 8);
        }),
        3 => (0..1_015 + over).for_each(|i| {
            m.other(&format!("n{i}"));
        }),
        4 => (0..count).for_each(|_| m.push(copy(var(r), int(1)))),
        5 => {
            m.define("m", vec![], vec![copy(var(r), int(1)); count]);
        }
        6 => (0..64 + over).for_each(|i| {
            m.field(&format!("n{i}"), Some(4));
        }),
        _ => (0..128 + over).for_each(|i| {
            m.define(&format!("n{i}"), vec![], vec![label(l)]);
        }),
    }
    m
}

/// Eight arguments and parameters, or nine.
fn many_args(over: usize, rng: &mut Rng) -> Maker {
    let mut m = Maker::with_ram();
    let (r, u, p) = (m.register("r", 4), m.user_op("u"), m.name("p"));
    let args = vec![var(r); 8 + over];
    match rng.below(4) {
        0 => m.push(call(u, args)),
        1 => m.push(copy(var(r), apply(u, args))),
        2 => m.push(copy(var(r), PcodeExpr::ConstantPoolRef { params: args })),
        _ => {
            let name = m.define("m", vec![p; 8 + over], vec![copy(var(r), var(p))]);
            m.push(call(name, vec![var(r); 8]));
        }
    }
    m
}

/// Arguments are unread operations, read again at each use and each level.
fn deep_macro_args(rng: &mut Rng) -> Maker {
    let mut m = Maker::with_ram();
    let (r, p, q) = (m.register("r", 4), m.name("p"), m.name("q"));
    let inner = m.define("i", vec![p, q], vec![copy(var(r), var(p)), copy(var(r), var(q))]);
    let args = |e: PcodeExpr| vec![op(var(p), PcodeOp::IntSub, e.clone()), e];
    let outer =
        m.define("o", vec![p], vec![call(inner, args(var(p))), call(inner, vec![var(p), var(p)])]);
    let load = deref(None, Some(4), truncate(var(r), 8));
    let arg = if rng.percent(50) { load } else { op(var(r), PcodeOp::IntAdd, int(1)) };
    m.push(call(outer, vec![arg]));
    m
}

/// Names of every length, with any bytes; a thousand of them at times.
fn many_names(rng: &mut Rng) -> Maker {
    let mut m = Maker::with_ram();
    let count = rng.pick(&[10, 200, 1_020]);
    while m.section.names.len() < count {
        let length = rng.range(2, 24);
        let name: Vec<u8> = (0..length).map(|_| rng.below(256) as u8).collect();
        if !m.section.names.contains(&name) {
            m.section.names.push(name);
        }
    }
    for i in 6..m.section.names.len().min(300) {
        m.section.registers.push(section::Register { name: i as u16, size: 4 });
    }
    for _ in 0..rng.below(20) {
        let pick = |rng: &mut Rng| var(section::ident(rng.range(6, 9) as u16));
        m.push(copy(pick(rng), pick(rng)));
    }
    m
}
