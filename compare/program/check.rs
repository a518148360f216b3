//! The library's checker against the second one, on lists of all kinds.

use std::collections::BTreeMap;

use crate::{
    library, lists,
    lists::List,
    rng::Rng,
    second::{self, Reason},
};

/// From one list so many are made: it as it is, and ones with something changed.
const FAMILY: u64 = 20;
/// Below so many lists, not every reason has to be met.
const ENOUGH: u64 = 10_000;

const SOURCES: [&str; 5] = [
    "the library's own",
    "the library's own, changed",
    "put together action by action",
    "put together, changed",
    "random words",
];
/// The sources that lists are made in, and the one of their changed lists.
const MADE: [(usize, usize); 3] = [(0, 1), (2, 3), (4, 4)];

#[derive(Default)]
struct Tally {
    lists: [u64; 5],
    library: [u64; 5],
    second: [u64; 5],
    reasons: BTreeMap<Reason, u64>,
    differ: u64,
}

fn base(source: usize, rng: &mut Rng) -> List {
    match source {
        0 => loop {
            if let Some(list) = lists::own(rng.next(), 0) {
                break list;
            }
        },
        2 => lists::put_together(rng),
        _ => lists::random(rng),
    }
}

impl Tally {
    fn add(&mut self, source: usize, list: &List) {
        let ours = library::check_list(&list.words, list.counts);
        let theirs = second::check(&list.words, list.counts);
        self.lists[source] += 1;
        self.library[source] += ours as u64;
        self.second[source] += theirs.is_ok() as u64;
        if ours != theirs.is_ok() {
            self.differ += 1;
            if self.differ <= 5 {
                let why = theirs.err().map_or("passes", lists::name);
                println!("the library says {ours}, the second checker: {why}");
                println!("{}", lists::describe(list));
            }
        }
        if let Err(reason) = theirs {
            *self.reasons.entry(reason).or_default() += 1;
        }
    }

    /// What was met, and the reasons for which no list was refused.
    fn print(&self) -> Vec<&'static str> {
        println!("{:48} {:>8} {:>10} {:>10}", "", "lists", "library", "second");
        for (i, source) in SOURCES.iter().enumerate() {
            let (lists, library, second) = (self.lists[i], self.library[i], self.second[i]);
            println!("{source:48} {lists:8} {library:10} {second:10}");
        }
        println!("refused because of");
        let met = |reason| self.reasons.get(&reason).copied().unwrap_or(0);
        Reason::ALL.iter().for_each(|(reason, text)| println!("  {text:46} {:8}", met(*reason)));
        let missing = Reason::ALL.iter().filter(|(reason, _)| met(*reason) == 0);
        missing.map(|(_, text)| *text).collect()
    }
}

pub fn run(count: u64, seed: u64) -> Result<(), String> {
    let mut tally = Tally::default();
    let mut made = 0;
    for family in 0.. {
        let mut rng = Rng::new(seed, family);
        let (source, changed) = MADE[rng.weighted(&[45, 45, 10])];
        let list = base(source, &mut rng);
        for i in 0..FAMILY.min(count - made) {
            let mut list = list.clone();
            let changes = if i == 0 { 0 } else { rng.weighted(&[0, 6, 2, 1]) };
            for _ in 0..changes {
                let way = rng.below(lists::CHANGES);
                lists::change(&mut list, way, &mut rng);
            }
            tally.add(if i == 0 { source } else { changed }, &list);
            made += 1;
        }
        if made == count {
            break;
        }
    }
    let missing = tally.print();
    let sum = |each: [u64; 5]| each.iter().sum::<u64>();
    println!("{} pass by the library, {} by the second", sum(tally.library), sum(tally.second));
    println!("{count} lists, {} differ", tally.differ);
    if tally.differ > 0 {
        return Err("The two checkers differ.".into());
    }
    if count >= ENOUGH && !missing.is_empty() {
        return Err(format!("No list was refused for: {}.", missing.join(", ")));
    }
    Ok(())
}
