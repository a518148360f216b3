//! Nanoseconds per section: the original's `resolve` on a ready AST, reading and resolving, and
//! the library's whole call, on the same files in the same run.

use section::{read, write, Section};
use sleigh_compile::door::Ready;

use crate::{generate, oracle, words::ACTION};

const ROUNDS: usize = 5;

struct Set {
    text: String,
    sections: Vec<Section>,
    repeat: usize,
}

/// Best of the rounds, per section.
struct Times {
    resolve: f64,
    read: f64,
    library: Option<f64>,
}

fn per_section(set: &Set, mut time: impl FnMut(&Section) -> u128) -> f64 {
    let rounds = (0..ROUNDS).map(|_| set.sections.iter().map(&mut time).sum::<u128>());
    rounds.min().unwrap_or(0) as f64 / (set.repeat * set.sections.len()) as f64
}

fn time(set: &Set) -> Times {
    let repeat = set.repeat;
    Times {
        resolve: per_section(set, |section| Ready::new(section).time(repeat)),
        read: per_section(set, |section| time_reading(&write::write(section), repeat)),
        library: library_time(set),
    }
}

fn time_reading(file: &[u8], repeat: usize) -> u128 {
    let start = std::time::Instant::now();
    for _ in 0..repeat {
        let section = read::read(file).expect("a section that can be read");
        std::hint::black_box(Ready::owned(section).resolve().is_ok());
    }
    start.elapsed().as_nanos()
}

#[cfg(called)]
fn library_time(set: &Set) -> Option<f64> {
    Some(per_section(set, |section| {
        let (la, lt) = lengths(section);
        crate::library::time(&write::write(section), la, lt, set.repeat)
    }))
}

#[cfg(not(called))]
fn library_time(_: &Set) -> Option<f64> {
    None
}

/// What a section needs, and a quarter more.
fn lengths(section: &Section) -> (usize, usize) {
    let needs = oracle::quick(section).1;
    (
        ACTION * (needs.actions + needs.actions / 4 + 1),
        needs.temporaries + needs.temporaries / 4 + 1,
    )
}

fn sets(seed: u64) -> Vec<Set> {
    let many = |count: u64, statements: usize, names: usize| -> Vec<Section> {
        (0..count).map(|i| generate::accepted(seed, i, statements, names, false)).collect()
    };
    let mut sets = vec![
        Set { text: "small typical sections".into(), sections: many(200, 6, 0), repeat: 20 },
        Set { text: "about 400 statements".into(), sections: many(5, 400, 0), repeat: 5 },
        Set { text: "files with 1,000 names".into(), sections: many(10, 40, 1_000), repeat: 5 },
    ];
    let longest = generate::accepted(seed, 1_000_000, 800, 0, true);
    for statements in [50, 100, 200, 400, 800] {
        let mut section = longest.clone();
        section.statements.truncate(statements);
        let text = format!("growth: {} statements", section.statements.len());
        sets.push(Set { text, sections: vec![section], repeat: 4_000 / statements });
    }
    sets
}

pub fn run(seed: u64) {
    println!("nanoseconds per section, best of {ROUNDS}; seed {seed}");
    println!(
        "{:26} {:>7} {:>7} {:>10} {:>12} {:>10}",
        "", "la", "lt", "resolve", "read+resolve", "library"
    );
    for set in sets(seed) {
        let lent: Vec<_> = set.sections.iter().map(lengths).collect();
        let la = lent.iter().map(|l| l.0).max().unwrap_or(0);
        let lt = lent.iter().map(|l| l.1).max().unwrap_or(0);
        let times = time(&set);
        let library = times.library.map_or("-".into(), |t| format!("{t:.0}"));
        print!(
            "{:26} {la:7} {lt:7} {:10.0} {:12.0} {library:>10}",
            set.text, times.resolve, times.read
        );
        if let Some(library) = times.library {
            let (a, b) = (times.resolve / library, times.read / library);
            print!("   resolve takes {a:.2} times as long, with reading {b:.2} times");
        }
        println!();
    }
}
