//! Points of document 01 that another reading would answer differently, each as a small file
//! with its number and ordinal. They try the reader and the judge's own parts.

use section::{write, NONE};
use sleigh_parse::ast::{PcodeExpr, PcodeOp, Statement};

use crate::{examples, maker::*, oracle, words::ACTION};

const NOWHERE: u64 = NONE as u64;

pub struct Reading {
    text: &'static str,
    file: Vec<u8>,
    lent: (usize, usize),
    right: (u64, u64),
}

fn of_stream(text: &'static str, stream: Vec<u8>, number: u64) -> Reading {
    let lent = (ACTION * 40, 40);
    Reading { text, file: write::seal(&stream), lent, right: (number, NOWHERE) }
}

fn of(
    text: &'static str,
    maker: Maker,
    actions: usize,
    temporaries: usize,
    right: (u64, u64),
) -> Reading {
    let lent = (ACTION * actions, temporaries);
    Reading { text, file: write::write(&maker.section), lent, right }
}

/// A header with these counts and no default space, and what follows it.
fn stream(counts: [u16; 11], rest: &[u8]) -> Vec<u8> {
    let mut words = vec![0];
    words.extend(counts);
    words.extend([NONE, 0, 0, 0, 0]);
    words.iter().flat_map(|w| w.to_le_bytes()).chain(rest.iter().copied()).collect()
}

const NAME: [u16; 11] = [1, 0, 0, 0, 0, 0, 0, 0, 0, 0, 0];

fn with(at: usize, count: u16) -> [u16; 11] {
    let mut counts = NAME;
    counts[at] = count;
    counts
}

/// So many names, 4 bytes each with their length, from the header on.
fn names(count: u16) -> Vec<u8> {
    (0..count).flat_map(|i| [3, b'n', (i % 256) as u8, (i / 256) as u8]).collect()
}

fn file_readings() -> Vec<Reading> {
    let spaces = |kinds: [u8; 2], second: u8| {
        let rest = [&[1, b'a', 1, b'b'][..], &[0, 0, kinds[0], 4, 0, second, 0, kinds[1], 4, 0]];
        let mut counts = with(1, 2);
        counts[0] = 2;
        stream(counts, &rest.concat())
    };
    // 34 bytes of header and 118 names of 4 bytes leave 4 bytes; then a name's length stands last.
    let last = |length: u8| {
        let mut rest = names(118);
        rest.extend([2, b'x', b'y', length]);
        stream(with(0, 120), &rest)
    };
    let mut rule_set = stream(NAME, &[1, b'a']);
    rule_set[0] = 1;
    vec![
        of_stream("one name", stream(NAME, &[1, b'a']), 0),
        of_stream("rule set 1", rule_set, 4),
        of_stream("no names, so the header's name nothing", stream([0; 11], &[]), 5),
        of_stream("a spelling twice", stream(with(0, 2), &[1, b'a', 1, b'a']), 6),
        of_stream("a name of no bytes", stream(NAME, &[0]), 4),
        of_stream("a name of 25 bytes that is cut", last(25), 4),
        of_stream("a name of 24 bytes that is cut", last(24), 3),
        of_stream("a second global before its bad kind", spaces([0, 9], 0), 6),
        of_stream("a bad kind before a second global", spaces([9, 0], 0), 3),
        of_stream("a kind of 3", spaces([0, 3], 1), 3),
        of_stream("two spaces", spaces([0, 2], 1), 0),
    ]
}

fn entry_readings() -> Vec<Reading> {
    let mut tail = stream(NAME, &[1, b'a']);
    tail.resize(510, 0);
    tail[509] = 1;
    let mut longer = stream(NAME, &[1, b'a']);
    longer.resize(1_000, 0);
    vec![
        of_stream("a register's size 65,535", stream(with(2, 1), &[1, b'a', 0, 0, 255, 255]), 4),
        of_stream("a register's size 1,024", stream(with(2, 1), &[1, b'a', 0, 0, 0, 4]), 0),
        of_stream("a register's name 65,535", stream(with(2, 1), &[1, b'a', 255, 255, 4, 0]), 5),
        of_stream("a nonzero byte after the end", tail, 3),
        of_stream("a zero block after the end", longer, 0),
        of_stream("an unknown statement", stream(with(10, 1), &[1, b'a', 11]), 3),
        of_stream("a local's size absent", stream(with(10, 1), &[1, b'a', 2, 0, 0, 255, 255]), 0),
        of_stream("a jump's size absent", jump_without_size(), 4),
        of_stream("a store's space absent", store_without_space(), 0),
    ]
}

fn jump_without_size() -> Vec<u8> {
    let mut rest = vec![1, b'a', 8, 1, 1];
    rest.extend([0; 8]);
    rest.extend([255, 255, 0]);
    stream(with(10, 1), &rest)
}

/// `*:4 5 = 5`, a RAM space being the default one.
fn store_without_space() -> Vec<u8> {
    let mut counts = with(10, 1);
    counts[1] = 1;
    let mut out = stream(counts, &[1, b'a', 0, 0, 0, 8, 0, 6, 255, 255, 4, 0, 1]);
    out[24..26].copy_from_slice(&[0, 0]);
    out.extend([5, 0, 0, 0, 0, 0, 0, 0, 1, 5, 0, 0, 0, 0, 0, 0, 0]);
    out
}

/// An expression 32 deep in front of `inner`, as bytes of the statement `export`.
fn deep(levels: usize, inner: &[u8]) -> Vec<u8> {
    let mut rest = vec![1, b'a', 1];
    // Dereferences: code, no space, no size, and the pointer one deeper.
    (0..levels).for_each(|_| rest.extend([6, 255, 255, 255, 255]));
    rest.extend(inner);
    stream(with(10, 1), &rest)
}

fn depth_readings() -> Vec<Reading> {
    let integer = [1, 0, 0, 0, 0, 0, 0, 0, 0];
    let mut accepted = of_stream("32 deep", deep(31, &integer), 39);
    accepted.right.1 = 0;
    vec![
        accepted,
        of_stream("33 deep", deep(32, &integer), 4),
        of_stream("33 deep with an unknown code", deep(32, &[9]), 3),
        of_stream("33 deep, cut at the code", deep_and_cut(), 3),
    ]
}

/// 32 levels that end with the block, more names standing before them.
fn deep_and_cut() -> Vec<u8> {
    let tail = &deep(32, &[])[36..];
    let spare = 510 - 34 - tail.len();
    let count = spare / 4;
    let mut rest = names(count as u16 - 1);
    let left = spare - 4 * (count - 1);
    rest.push(left as u8 - 1);
    rest.extend(vec![b'z'; left - 1]);
    rest.extend(tail);
    let mut counts = with(10, 1);
    counts[0] = count as u16;
    stream(counts, &rest)
}

/// A RAM space, a register space, another one, and registers of 4, 4, 8 and 16 bytes.
struct World {
    m: Maker,
    r: PcodeExpr,
    wide: PcodeExpr,
}

fn world() -> World {
    let mut m = Maker::with_ram();
    m.space("reg", 1, 4);
    m.space("io", 2, 4);
    let r = var(m.register("r4", 4));
    m.register("s4", 4);
    m.register("r8", 8);
    let wide = var(m.register("r16", 16));
    World { m, r, wide }
}

fn sum(w: &World) -> PcodeExpr {
    op(w.r.clone(), PcodeOp::IntAdd, w.r.clone())
}

fn make(build: impl Fn(&mut World) -> Vec<Statement>) -> Maker {
    let mut w = world();
    let statements = build(&mut w);
    statements.into_iter().for_each(|s| w.m.push(s));
    w.m
}

fn list_readings() -> Vec<Reading> {
    let built = || {
        make(|w| {
            let t = w.m.table("t", Some(4));
            w.m.subtable("t", 0);
            vec![Statement::Build { name: t }]
        })
    };
    let locals = || {
        make(|w| {
            let x = w.m.name("x");
            vec![local(x, None), local(x, None)]
        })
    };
    let stored = || {
        make(|w| vec![Statement::Store { space: None, size: None, pointer: int(0), value: sum(w) }])
    };
    let mut short = of("a subtable and 23 words", built(), 1, 0, (12, NOWHERE));
    short.lent.0 = 23;
    vec![
        short,
        of("build of the one subtable, 24 words", built(), 1, 0, (12, 0)),
        of("build of the one subtable, 48 words", built(), 2, 0, (0, NOWHERE)),
        of("13 before 21", locals(), 9, 1, (13, 1)),
        of("21", locals(), 9, 2, (21, 1)),
        of("an output's 13 before its push's 12", stored(), 0, 0, (13, 0)),
        of("the push's 12", stored(), 0, 1, (12, 0)),
    ]
}

fn space_readings() -> Vec<Reading> {
    let load = |space: &'static str| {
        make(move |w| {
            let name = w.m.name(space);
            vec![copy(w.r.clone(), deref(Some(name), Some(4), sum(w)))]
        })
    };
    let to = |space: &'static str| {
        make(move |w| {
            let name = w.m.name(space);
            vec![copy(deref(Some(name), Some(4), w.r.clone()), int(1))]
        })
    };
    let next = make(|w| vec![copy(var(w.m.name("inst_next")), w.r.clone())]);
    let twice = make(|w| vec![local(w.m.name("inst_next"), None); 2]);
    vec![
        of("40 after the pointer's temporary", load("io"), 9, 0, (13, 0)),
        of("40 after the pointer's push", load("io"), 0, 9, (12, 0)),
        of("40", load("io"), 9, 9, (40, 0)),
        of("a space's 22 before the read", load("nope"), 0, 0, (22, 0)),
        of("a space's 23 before the read", load("r4"), 0, 0, (23, 0)),
        of("a Copy to a register space", to("reg"), 9, 9, (37, 0)),
        of("a Copy to const of a local", to("const"), 9, 9, (0, NOWHERE)),
        of("inst_next as a target", next, 9, 9, (0, NOWHERE)),
        of("local inst_next twice", twice, 9, 9, (21, 1)),
    ]
}

fn slice_readings() -> Vec<Reading> {
    let bits = || make(|w| vec![copy(slice(w.wide.clone(), 65, 3), sum(w))]);
    let constant =
        |first, count| make(move |w| vec![copy(w.r.clone(), slice(int(5), first, count))]);
    vec![
        of("a bit write's 41 after the source's temporary", bits(), 9, 0, (13, 0)),
        of("a bit write's 41 after the source's push", bits(), 0, 9, (12, 0)),
        of("a bit write's 41 before its own temporaries", bits(), 1, 1, (41, 0)),
        of("a constant's 36 before 41", constant(64, 8), 9, 9, (36, 0)),
        of("an unsized constant [64,0]", constant(64, 0), 9, 9, (41, 0)),
        of("an unsized constant [63,1]", constant(63, 1), 9, 9, (51, 0)),
    ]
}

fn call_readings() -> Vec<Reading> {
    let expr = |name: &'static str, args: Vec<PcodeExpr>| {
        make(move |w| {
            w.m.user_op("u");
            vec![copy(w.r.clone(), apply(w.m.name(name), args.clone()))]
        })
    };
    let nope = |m: &mut Maker| var(m.name("nope"));
    let order = make(|w| {
        let (u, n) = (w.m.user_op("u"), nope(&mut w.m));
        vec![copy(w.r.clone(), apply(u, vec![sum(w), n]))]
    });
    let wins = make(|w| {
        let u = w.m.user_op("u");
        let args = vec![int(1), int(1)];
        vec![local(u, Some(4)), copy(w.r.clone(), apply(u, args))]
    });
    vec![
        of("33 before any argument", expr("!", vec![sum(&world()), int(1)]), 0, 0, (33, 0)),
        of("22 of the name before 35", expr("nope", vec![int(256)]), 9, 9, (22, 0)),
        of("35", expr("r4", vec![int(256)]), 9, 9, (35, 0)),
        of("an argument's 22 before another's read", order, 0, 0, (22, 0)),
        of("a user op wins over a local", wins, 9, 9, (0, NOWHERE)),
    ]
}

fn macro_readings() -> Vec<Reading> {
    let unknown = make(|w| {
        let name = w.m.define("m", vec![], vec![]);
        vec![call(name, vec![var(w.m.name("nope"))])]
    });
    let mut deep = examples::depth(17);
    deep.section.macros[16].params = vec![section::ident(0)];
    let piece = make(|w| {
        let empty = w.m.define("m", vec![], vec![]);
        let (x, r4) = (w.m.name("x"), w.m.name("r4"));
        let wrong = copy(w.r.clone(), truncate(int(1), 2));
        vec![wrong, copy(var(x), apply(r4, vec![int(0)])), call(empty, vec![])]
    });
    let inside = make(|w| {
        let (x, r4) = (w.m.name("x"), w.m.name("r4"));
        let body = vec![Statement::Unimplemented, copy(var(x), apply(r4, vec![int(0)]))];
        let name = w.m.define("m", vec![], body);
        vec![call(name, vec![])]
    });
    let recorded = make(|w| {
        let name = w.m.define("m", vec![], vec![copy(w.r.clone(), truncate(int(1), 2))]);
        vec![call(name, vec![]), copy(w.r.clone(), truncate(int(1), 2))]
    });
    let after = make(|w| {
        let name = w.m.define("m", vec![], vec![Statement::Export { value: w.r.clone() }]);
        vec![call(name, vec![]), Statement::Unimplemented]
    });
    vec![
        of("an argument's 22 before 26", unknown, 9, 9, (22, 0)),
        of("26 before 11", deep, 9, 9, (26, 15)),
        of("50 over 51, at the call of an empty macro", piece, 9, 9, (50, 2)),
        of("50 at the last statement of a body", inside, 9, 9, (50, 1)),
        of("51 at the body's statement", recorded, 9, 9, (51, 0)),
        of("20 after a macro's export", after, 9, 9, (20, 2)),
    ]
}

fn all() -> Vec<Reading> {
    let parts = [
        file_readings(),
        entry_readings(),
        depth_readings(),
        list_readings(),
        space_readings(),
        slice_readings(),
        call_readings(),
        macro_readings(),
    ];
    parts.into_iter().flatten().collect()
}

pub fn count() -> usize {
    all().len()
}

/// The readings that fail, each told on a line.
pub fn check() -> Vec<String> {
    let mut failed = vec![];
    for reading in all() {
        let (la, lt) = reading.lent;
        match oracle::judge(&reading.file, la, lt) {
            Ok(answer) if (answer.result[0], answer.result[1]) == reading.right => {}
            Ok(answer) => failed.push(format!("{}: {:?}", reading.text, &answer.result[..2])),
            Err(broken) => failed.push(format!("{}: {}", reading.text, broken.0)),
        }
    }
    failed
}
