//! The generated cases. A seed and a number name one case, whatever else is generated.

mod chains;
mod damage;
mod edges;
mod exprs;
mod sections;
mod statements;
mod world;
mod wrong;

use section::{read, write, Section};

use crate::{
    oracle::{self, Needs},
    rng::Rng,
    words::ACTION,
};
use sections::Patience;
use world::{Style, World};

pub struct Case {
    pub file: Vec<u8>,
    pub la: usize,
    pub lt: usize,
}

const STRICT: Patience = Patience { recorded: 4, other: 1 };
const SIZES: Patience = Patience { recorded: 60, other: 2 };
const LOOSE: Patience = Patience { recorded: 100, other: 100 };

pub fn case(seed: u64, number: u64, small: bool) -> Case {
    let mut rng = Rng::new(seed, number);
    let kind = rng.weighted(&[34, 10, 12, 7, 12, if small { 1 } else { 3 }, 4, 9, 9]);
    let section = match kind {
        0 => typical(&mut rng, small),
        1 => size_stress(&mut rng, small),
        2 => macros(&mut rng, small),
        3 => wild(&mut rng, small),
        4 => wrong_one(&mut rng, small),
        5 => edges::edge(&mut rng),
        6 => {
            let mut section = typical(&mut rng, small);
            damage::bad_entry(&mut section, &mut rng);
            section
        }
        7 => typical(&mut rng, true),
        _ => chains(&mut rng, small),
    };
    let mut file = write::write(&section);
    if kind == 7 {
        file = damage::damage(&file, &mut rng);
    }
    lend(file, &mut rng)
}

/// An accepted section of about so many statements, with extra names, for measuring.
/// A flat one has no operations within operations, so that few temporaries are needed.
pub fn accepted(seed: u64, number: u64, statements: usize, names: usize, flat: bool) -> Section {
    const NEVER: Patience = Patience { recorded: 0, other: 0 };
    let mut rng = Rng::new(seed, number);
    let mut world = world(&mut rng, 2, 20, false);
    if flat {
        world.style.depth = 0;
    }
    world.maker.section.default_space = Some(0);
    world.maker.section.spaces[0].size = 8;
    world.define_macros(2, 3, NEVER);
    for i in world.maker.section.names.len()..names {
        world.maker.register(&format!("name_{i}"), 4);
    }
    world.fill(statements, NEVER);
    world.maker.section
}

fn fork(rng: &mut Rng) -> Rng {
    Rng::new(rng.next(), 0)
}

fn world(rng: &mut Rng, noise: usize, unsized_locals: usize, small: bool) -> World {
    let depth = rng.pick(&[1, 2, 2, 3, 4]);
    World::new(fork(rng), Style { noise, unsized_locals, depth, small })
}

fn count(rng: &mut Rng, small: bool) -> usize {
    match rng.below(20) {
        _ if small => rng.range(1, 7),
        0 => rng.range(0, 1),
        1 => rng.range(20, 60),
        _ => rng.range(1, 14),
    }
}

fn typical(rng: &mut Rng, small: bool) -> Section {
    let mut world = world(rng, 6, 30, small);
    if rng.percent(30) {
        world.define_macros(rng.range(1, 2), 4, STRICT);
    }
    world.fill(count(rng, small), STRICT);
    if rng.percent(30) {
        world.finish(STRICT);
    }
    world.maker.section
}

fn size_stress(rng: &mut Rng, small: bool) -> Section {
    let mut world = world(rng, 20, 85, small);
    let statements = count(rng, small) + 3;
    world.fill(statements, SIZES);
    if rng.percent(30) {
        world.finish(SIZES);
    }
    world.maker.section
}

fn chains(rng: &mut Rng, small: bool) -> Section {
    let mut world = world(rng, 5, 100, true);
    let (locals, links) = if small { (4, 6) } else { (rng.range(2, 8), rng.range(3, 16)) };
    world.chain(locals, links);
    world.maker.section
}

fn macros(rng: &mut Rng, small: bool) -> Section {
    let mut world = world(rng, 8, 40, small);
    let (defined, statements) = if small { (2, 3) } else { (rng.range(2, 6), 6) };
    world.define_macros(defined, statements, STRICT);
    world.fill(count(rng, small), STRICT);
    for _ in 0..rng.range(1, 3) {
        let statement = world.call_macro(2);
        world.maker.push(statement);
        if oracle::quick(&world.maker.section).0 != 0 && rng.percent(90) {
            world.maker.section.statements.pop();
        }
    }
    world.maker.section
}

fn wild(rng: &mut Rng, small: bool) -> Section {
    let mut world = world(rng, 25, 50, small);
    if rng.percent(50) {
        world.define_macros(2, 3, LOOSE);
    }
    world.fill(count(rng, small).min(6), LOOSE);
    if rng.percent(30) {
        world.finish(LOOSE);
    }
    world.maker.section
}

/// A typical section with something refused in it, and mostly more statements after.
fn wrong_one(rng: &mut Rng, small: bool) -> Section {
    let mut world = world(rng, 5, 30, true);
    world.fill(rng.below(if small { 3 } else { 6 }), STRICT);
    let number = rng.pick(&wrong::NUMBERS);
    let from = world.maker.section.statements.len();
    world.wrong(number);
    if rng.percent(35) {
        world.into_macros(from, rng.range(1, 3));
    }
    if rng.percent(60) {
        let more = world.maker.section.statements.len() + rng.below(3);
        world.fill(more, LOOSE);
    }
    world.maker.section
}

/// Lent lengths: mostly roomy, else at an edge of what the section needs.
fn lend(file: Vec<u8>, rng: &mut Rng) -> Case {
    let needs = match read::read(&file) {
        Ok(section) => oracle::quick(&section).1,
        Err(_) => Needs::default(),
    };
    let (actions, lt) = (ACTION * needs.actions, needs.temporaries);
    let la = match rng.below(40) {
        0 => actions.saturating_sub(1),
        1 => actions,
        2 => actions.saturating_sub(ACTION),
        3 => rng.below(actions + 1),
        4 => 0,
        5..=14 => actions + rng.below(ACTION),
        _ => actions + ACTION * rng.range(1, 4) + rng.pick(&[0, 0, 5]),
    };
    let lt = match rng.below(40) {
        0 => lt.saturating_sub(1),
        1 => rng.below(lt + 1),
        2 => 0,
        3..=14 => lt,
        15 => 513,
        _ => lt + rng.below(4),
    };
    Case { file, la, lt }
}
