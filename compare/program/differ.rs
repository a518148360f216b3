//! The library against the judge, on generated files.

use section::{read, Section};

use crate::{
    generate::{self, Case},
    library, oracle, shrink,
    words::{Answer, ACTION},
};

/// What is different about a case, in words; `None` if nothing is.
pub fn difference(case: &Case) -> Option<String> {
    let right = match oracle::judge(&case.file, case.la, case.lt) {
        Ok(answer) => answer,
        Err(broken) => return Some(format!("the judge is broken: {}", broken.0)),
    };
    match library::resolve(&case.file, case.la, case.lt) {
        Ok(answer) => compare(&right, &answer),
        Err(text) => Some(text),
    }
}

fn compare(right: &Answer, answer: &Answer) -> Option<String> {
    if right.result != answer.result {
        return Some(format!("result {:?}, not {:?}", answer.result, right.result));
    }
    let differs = |a: &[u64], b: &[u64]| a.iter().zip(b).position(|(a, b)| a != b);
    if let Some(at) = differs(&right.actions, &answer.actions) {
        let (action, word) = (at / ACTION, at % ACTION);
        let (is, should) = (answer.actions[at], right.actions[at]);
        return Some(format!("word {word} of action {action} is {is:#x}, not {should:#x}"));
    }
    let at = differs(&right.temporaries, &answer.temporaries)?;
    let (is, should) = (answer.temporaries[at], right.temporaries[at]);
    Some(format!("temporary {at} is {is:#x}, not {should:#x}"))
}

/// Compares so many files; differences are printed, the first few as small as they get.
pub fn run(count: u64, seed: u64) -> Result<(), String> {
    let (mut differ, mut accepted, mut checked) = (0u64, 0u64, 0u64);
    for i in 0..count {
        let case = generate::case(seed, i, false);
        if let Some(text) = difference(&case) {
            differ += 1;
            println!("file {i} of seed {seed}: {text}");
            if differ <= 5 {
                print_small(case);
            }
            continue;
        }
        if let Some(passed) = check_list(&case) {
            accepted += 1;
            checked += passed as u64;
        }
    }
    println!("{accepted} lists accepted, of which the checker passes {checked}");
    println!("{count} files, {differ} differ");
    if differ == 0 {
        Ok(())
    } else {
        Err("The library and the original differ.".into())
    }
}

/// Whether the checker passes an accepted case's list. This is only counted: the checker has no
/// counterpart in the original.
fn check_list(case: &Case) -> Option<bool> {
    let section: Section = read::read(&case.file).ok()?;
    let answer = library::resolve(&case.file, case.la, case.lt).ok()?;
    if answer.result[0] != 0 {
        return None;
    }
    let subtables = section.subtables.len() as u64;
    Some(library::check(&answer, subtables, section.pointer_size() as u64))
}

/// A smaller case must still differ, and be judged with the same number.
fn print_small(case: Case) {
    let number = right_number(&case);
    let shows = |case: &Case| right_number(case) == number && difference(case).is_some();
    let small = shrink::shrink(case, &shows);
    println!("  smallest: {}", difference(&small).unwrap_or_default());
    println!("  {}", shrink::describe(&small).join("\n  "));
}

fn right_number(case: &Case) -> Option<u64> {
    oracle::judge(&case.file, case.la, case.lt).ok().map(|answer| answer.result[0])
}
