//! Lists for the two checkers: the library's own, ones that are put together action by action,
//! random words, and any of these with something changed.

use section::read;

use crate::{
    generate, library,
    rng::Rng,
    second::{Counts, Reason},
    words::ACTION,
};

#[derive(Clone)]
pub struct List {
    pub words: Vec<u64>,
    pub counts: Counts,
}

const SIZES: [u64; 7] = [0, 1, 2, 4, 8, 16, 1_024];
const UNSIZED: u64 = 65_535;

/// A list that the library made of a generated file, with its section's counts.
pub fn own(seed: u64, number: u64) -> Option<List> {
    let case = generate::case(seed, number, false);
    let section = read::read(&case.file).ok()?;
    let answer = library::resolve(&case.file, case.la, case.lt).ok()?;
    let counts = Counts {
        actions: answer.result[3],
        temporaries: answer.result[4],
        subtables: section.subtables.len() as u64,
        pointer_size: section.pointer_size() as u64,
    };
    (answer.result[0] == 0).then_some(List { words: answer.actions, counts })
}

pub fn random(rng: &mut Rng) -> List {
    let length = rng.pick(&[0, 1, 23, 24, 25, 47, 48, 72, 100]);
    let kind = rng.below(3);
    let words = (0..length).map(|_| match kind {
        0 => rng.next(),
        1 => rng.next() >> rng.below(64),
        _ => rng.below(3) as u64 * rng.below(66) as u64,
    });
    let words = words.collect();
    let mut small = |limit| rng.below(limit) as u64;
    let counts = Counts {
        actions: small(length / ACTION + 2),
        temporaries: small(70),
        subtables: small(2),
        pointer_size: small(9),
    };
    List { words, counts }
}

/// A list of valid actions, each made by itself.
pub fn put_together(rng: &mut Rng) -> List {
    let many = rng.percent(5);
    let subtables = if many { rng.range(250, 600) } else { rng.below(5) } as u64;
    let mut counts = Counts {
        actions: 0,
        temporaries: rng.below(6) as u64,
        subtables,
        pointer_size: rng.pick(&[0, 1, 2, 4, 8, 8, 8, 16, 65_534]),
    };
    let mut rows: Vec<[u64; ACTION]> = (0..subtables).map(|n| row(5, 0, n)).collect();
    let labels = if many { rng.range(200, 256) } else { rng.below(3) };
    rows.extend((0..labels).map(|n| without_output(62, n as u64)));
    rows.extend((0..rng.below(9)).map(|_| action(rng, counts)));
    // Any order of the actions is as good.
    for i in (1..rows.len()).rev() {
        rows.swap(i, rng.below(i + 1));
    }
    counts.actions = rows.len() as u64;
    let mut words = rows.concat();
    words.resize(words.len() + rng.pick(&[0, 0, 1, 23, 24, 60]), 0);
    List { words, counts }
}

fn row(kind: u64, operation: u64, number: u64) -> [u64; ACTION] {
    let mut words = [0; ACTION];
    words[..3].copy_from_slice(&[kind, operation, number]);
    words
}

fn without_output(operation: u64, number: u64) -> [u64; ACTION] {
    let mut words = row(0, operation, number);
    words[5] = 255;
    words
}

fn value(rng: &mut Rng, counts: Counts, offset: u64, size: u64) -> [u64; 2] {
    let kind = loop {
        let kind = rng.below(8) as u64;
        let empty = match kind {
            4 | 5 => counts.subtables == 0,
            6 => counts.temporaries == 0,
            _ => false,
        };
        if !empty {
            break kind;
        }
    };
    let number = match kind {
        0 | 1 => 0,
        4 | 5 => rng.next() % counts.subtables,
        6 => rng.next() % counts.temporaries,
        _ => rng.next() >> rng.below(64),
    };
    [number, kind + 256 * offset + (size << 24)]
}

fn action(rng: &mut Rng, counts: Counts) -> [u64; ACTION] {
    let kind = rng.weighted(&[12, 1, 1, 1, 1, 0]) as u64;
    if kind == 0 {
        return operation(rng, counts);
    }
    let mut words = row(kind, 0, if kind < 4 && kind > 1 { rng.below(1_025) as u64 } else { 0 });
    let any = |rng: &mut Rng| {
        let size = rng.pick(&[UNSIZED, UNSIZED, 4, 8, 0]);
        let offset = rng.below(3) as u64;
        value(rng, counts, offset, size)
    };
    let base = value(rng, counts, 0, UNSIZED);
    match kind {
        1 | 2 => {
            words[3] = 1;
            words[4..6].copy_from_slice(&any(rng));
            words[6..8].copy_from_slice(&if kind == 1 { base } else { any(rng) });
        }
        3 => {
            words[3] = 2;
            words[6..8].copy_from_slice(&any(rng));
            words[8..10].copy_from_slice(&any(rng));
        }
        _ => {}
    }
    words
}

/// An operation whose operands have sizes by its rule, output first.
fn operation(rng: &mut Rng, counts: Counts) -> [u64; ACTION] {
    let code = loop {
        let code = rng.below(66) as u64;
        if !(33..39).contains(&code) && code != 62 {
            break code;
        }
    };
    let mut size = || rng.pick(&SIZES);
    let (a, b, c) = (size(), size(), size());
    let pointer = counts.pointer_size;
    let sizes: Vec<u64> = match code {
        0..=6 | 16..=19 | 24..=26 => vec![a, a, a],
        7..=9 => vec![a, a, b],
        10..=15 | 20..=23 | 30..=32 => vec![1, a, a],
        27..=29 => vec![1, 1, 1],
        39 => vec![1, 1],
        40 | 41 | 45..=50 | 57 => vec![a, a],
        42 => vec![1, a],
        43 | 44 | 51..=56 => vec![a, b],
        58 => vec![a, pointer],
        59 => vec![0, pointer, a],
        60 | 61 => vec![0, 1, a],
        64 => vec![0, a],
        65 => vec![0],
        _ => [a, b, c, a, b, c, a, b, c][..rng.range(1, 9)].to_vec(),
    };
    let number = match code {
        60 => rng.below(3),
        61 | 63 => rng.below(256),
        64 => rng.below(6),
        _ => 0,
    };
    let mut words = without_output(code, number as u64);
    let output = code <= 58 || code == 63 && sizes.len() <= 3 && rng.percent(50);
    words[3] = sizes.len() as u64 - 1;
    for (i, size) in sizes.into_iter().enumerate().skip(!output as usize) {
        let offset = rng.pick(&[0, 0, 0, 1, 65_535]);
        words[4 + 2 * i..6 + 2 * i].copy_from_slice(&value(rng, counts, offset, size));
    }
    words
}

/// The ways in which a list is changed.
pub const CHANGES: usize = 14;

pub fn change(list: &mut List, way: usize, rng: &mut Rng) {
    let used = (list.counts.actions as usize).saturating_mul(ACTION).min(list.words.len());
    let rows = used / ACTION;
    match way {
        0 if used > 0 => {
            let at = rng.below(used);
            list.words[at] = other(rng, list.words[at]);
        }
        1 if rows > 0 => {
            let at = rng.below(rows) * ACTION;
            list.words.drain(at..at + ACTION);
            list.counts.actions = list.counts.actions.wrapping_sub(rng.pick(&[1, 1, 1, 0]));
        }
        2 if rows > 0 => {
            let at = rng.below(rows) * ACTION;
            let copy = list.words[at..at + ACTION].to_vec();
            list.words.splice(at..at, copy);
            list.counts.actions = list.counts.actions.wrapping_add(rng.pick(&[1, 1, 1, 0]));
        }
        3 if rows > 0 => {
            let at = rng.below(rows) * ACTION + 5 + 2 * rng.below(3);
            let size = rng.pick(&[0, 1, 2, 4, 8, UNSIZED, UNSIZED, list.counts.pointer_size]);
            list.words[at] = list.words[at] & 0xff_ffff | (size & UNSIZED) << 24;
        }
        4 => {
            let length = list.words.len() + rng.pick(&[0, 1, 24, 50]);
            list.words.resize(length, 0);
            if used < list.words.len() {
                let at = rng.range(used, list.words.len() - 1);
                list.words[at] = rng.next() >> rng.below(64);
            }
        }
        5 => {
            let count = pick_count(list, rng);
            *count = if rng.percent(50) { count.wrapping_add(1) } else { count.wrapping_sub(1) };
        }
        6 => {
            let huge = rng.pick(&[
                u64::MAX,
                1 << 63,
                1 << 32,
                u64::MAX / 24,
                u64::MAX / 24 + 1,
                u64::MAX / 24 + 2,
                256,
                65_536,
            ]);
            let count = pick_count(list, rng);
            *count = rng.pick(&[huge, huge.wrapping_add(*count)]);
        }
        7 => {
            let size = list.counts.pointer_size;
            let other = rng.below(10) as u64;
            let high = rng.pick(&[65_536, 1 << 24, 1 << 32, 1 << 40, 1 << 63]);
            list.counts.pointer_size =
                rng.pick(&[size.wrapping_add(high), high, u64::MAX, UNSIZED, other]);
        }
        8 => list.words.truncate(rng.range(used.saturating_sub(ACTION), list.words.len())),
        9 if rows > 1 => {
            let (a, b) = (rng.below(rows), rng.below(rows));
            (0..ACTION).for_each(|i| list.words.swap(ACTION * a + i, ACTION * b + i));
        }
        10 if rows > 0 => {
            let at = rng.below(rows) * ACTION + 1;
            list.words[at] = rng.below(68) as u64;
        }
        11 if rows > 0 => {
            let at = rng.below(rows) * ACTION + 2;
            list.words[at] = rng.pick(&[0, 1, 2, 3, 5, 6, 255, 256, 1_024, 1_025, 1 << 32]);
        }
        12 if rows > 0 => {
            let at = rng.below(rows) * ACTION;
            let made = action(rng, list.counts);
            list.words[at..at + ACTION].copy_from_slice(&made);
        }
        13 if rows > 0 => number(list, rng.below(rows) * ACTION, rng),
        _ => {}
    }
}

fn pick_count<'a>(list: &'a mut List, rng: &mut Rng) -> &'a mut u64 {
    match rng.below(4) {
        0 => &mut list.counts.actions,
        1 => &mut list.counts.temporaries,
        _ => &mut list.counts.subtables,
    }
}

fn other(rng: &mut Rng, word: u64) -> u64 {
    match rng.below(6) {
        0 => rng.next(),
        1 => word ^ 1 << rng.below(64),
        2 => word.wrapping_add(1),
        3 => word.wrapping_sub(1),
        4 => rng.below(70) as u64,
        _ => 0,
    }
}

/// A value's number set to an edge of its kind, or its kind changed.
fn number(list: &mut List, at: usize, rng: &mut Rng) {
    let place = at + 4 + 2 * rng.below(3);
    match rng.below(4) {
        0 => list.words[place + 1] = list.words[place + 1] & !255 | rng.below(10) as u64,
        1 => list.words[place + 1] ^= 1 << rng.pick(&[8, 23, 39, 40, 63]),
        _ => {
            let Counts { temporaries, subtables, .. } = list.counts;
            list.words[place] = rng.pick(&[temporaries, subtables, 0, 1, u64::MAX]);
        }
    }
}

/// A list as text, one action to a line.
pub fn describe(list: &List) -> String {
    let mut text = format!("{:?}, {} words", list.counts, list.words.len());
    for words in list.words.chunks(ACTION) {
        let words: Vec<String> = words.iter().map(|word| format!("{word:#x}")).collect();
        text += &format!("\n  {}", words.join(" "));
    }
    text
}

pub fn name(reason: Reason) -> &'static str {
    Reason::ALL.iter().find(|(each, _)| *each == reason).map_or("", |(_, text)| text)
}
