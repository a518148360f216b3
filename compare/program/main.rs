//! The comparison program. Its subcommands are in README.md.

mod bench;
#[cfg(called)]
mod check;
mod coverage;
#[cfg(called)]
mod differ;
mod dump;
mod examples;
mod generate;
#[cfg(called)]
mod library;
#[cfg(called)]
mod lists;
mod maker;
mod messages;
#[cfg(mock)]
mod mock;
mod oracle;
mod readings;
mod replay;
mod rng;
#[cfg(called)]
mod second;
#[cfg(called)]
mod shrink;
mod words;

use std::{env, fs, process};

const USAGE: &str = "\
Call it as one of:
  generate COUNT SEED FOLDER     write section files
  answer FILE LA LT              print the right answer for a file and two lent lengths
  dump [--text] COUNT SEED OUT   write cases with their answers into one data file
  replay FILE                    judge the cases of a data file again
  selfcheck [COUNT] [SEED]       check the judge on document 01's sections and on random files
  coverage [COUNT] [SEED]        print what random files reach
  run [COUNT] [SEED]             compare the library with the original
  check [COUNT] [SEED]           compare the library's checker with a second one
  bench [SEED]                   nanoseconds per section";

type Done = Result<(), String>;

fn number<T: std::str::FromStr>(text: Option<&String>, default: Option<T>) -> Result<T, String> {
    match (text, default) {
        (Some(text), _) => text.parse().map_err(|_| format!("{text} is not a number.")),
        (None, Some(default)) => Ok(default),
        (None, None) => Err(format!("A number is missing.\n{USAGE}")),
    }
}

fn path(text: Option<&String>) -> Result<&String, String> {
    text.ok_or_else(|| format!("A path is missing.\n{USAGE}"))
}

fn main() {
    oracle::quiet();
    let args: Vec<String> = env::args().skip(1).collect();
    if let Err(message) = run(&args) {
        eprintln!("{message}");
        process::exit(1);
    }
}

fn run(args: &[String]) -> Done {
    let [command, rest @ ..] = args else { return Err(USAGE.into()) };
    let (a, b, c) = (rest.first(), rest.get(1), rest.get(2));
    match command.as_str() {
        "generate" => write_files(number(a, None)?, number(b, None)?, path(c)?),
        "answer" => print_answer(path(a)?, number(b, None)?, number(c, None)?),
        "dump" if a.is_some_and(|a| a == "--text") => {
            dump::write(number(b, None)?, number(c, None)?, path(rest.get(3))?, true)
        }
        "dump" => dump::write(number(a, None)?, number(b, None)?, path(c)?, false),
        "replay" => replay::replay(path(a)?),
        "selfcheck" => selfcheck(number(a, Some(2_000))?, number(b, Some(1))?),
        "coverage" => print_coverage(number(a, Some(20_000))?, number(b, Some(1))?),
        "run" => compare(number(a, Some(10_000))?, number(b, Some(1))?),
        "check" => check(number(a, Some(100_000))?, number(b, Some(1))?),
        "bench" => {
            bench::run(number(a, Some(1))?);
            Ok(())
        }
        _ => Err(USAGE.into()),
    }
}

#[cfg(called)]
fn compare(count: u64, seed: u64) -> Done {
    differ::run(count, seed)
}

#[cfg(not(called))]
fn compare(_: u64, _: u64) -> Done {
    Err("This program was built without the library.".into())
}

#[cfg(called)]
fn check(count: u64, seed: u64) -> Done {
    check::run(count, seed)
}

#[cfg(not(called))]
fn check(_: u64, _: u64) -> Done {
    Err("This program was built without the library.".into())
}

fn write_files(count: u64, seed: u64, folder: &str) -> Done {
    fs::create_dir_all(folder).map_err(|e| format!("{folder}: {e}"))?;
    for i in 0..count {
        let case = generate::case(seed, i, false);
        let file = format!("{folder}/{i}.section");
        fs::write(&file, &case.file).map_err(|e| format!("{file}: {e}"))?;
    }
    println!("{count} files in {folder}");
    Ok(())
}

fn print_answer(file: &str, la: usize, lt: usize) -> Done {
    let bytes = fs::read(file).map_err(|e| format!("{file}: {e}"))?;
    let answer = oracle::judge(&bytes, la, lt).map_err(|broken| broken.0)?;
    let line = |words: &[u64]| words.iter().map(u64::to_string).collect::<Vec<_>>().join(" ");
    println!("{}", line(&answer.result));
    let actions = answer.result[3] as usize;
    answer.actions.chunks(words::ACTION).take(actions).for_each(|row| println!("{}", line(row)));
    println!("{}", line(&answer.temporaries[..answer.result[4] as usize]));
    Ok(())
}

/// The examples, then random files, at each of which the two copies of the original must agree.
fn selfcheck(count: u64, seed: u64) -> Done {
    let mut failed = examples::check();
    failed.extend(readings::check());
    failed.iter().for_each(|line| println!("{line}"));
    let mut broken = failed.len();
    for i in 0..count {
        let case = generate::case(seed, i, false);
        let judged = oracle::judge(&case.file, case.la, case.lt).map_err(|broken| broken.0);
        if let Err(text) = judged.and_then(|_| read_back(&case.file)) {
            println!("file {i} of seed {seed}: {text}");
            broken += 1;
        }
    }
    let fixed = examples::count() + readings::count();
    println!("{fixed} sections from document 01 and {count} files, {broken} wrong");
    if broken == 0 {
        Ok(())
    } else {
        Err("The judge is not to be trusted.".into())
    }
}

/// What is read from a file is written as the same file, zero blocks at its end left out.
fn read_back(file: &[u8]) -> Result<(), String> {
    let Ok(section) = section::read::read(file) else { return Ok(()) };
    let written = section::write::write(&section);
    match file.starts_with(&written) {
        true => Ok(()),
        false => Err("the file is not written as it was read".into()),
    }
}

fn print_coverage(count: u64, seed: u64) -> Done {
    let mut reached = coverage::Coverage::default();
    for i in 0..count {
        let case = generate::case(seed, i, false);
        let answer = oracle::judge(&case.file, case.la, case.lt).map_err(|broken| broken.0)?;
        reached.add(&coverage::features(&case.file, &answer), &answer);
    }
    for (name, times) in &reached.features {
        println!("{times:8} {name}");
    }
    println!(
        "{count} files; numbers that were not reached: {:?} (31 is reached by no file)",
        reached.missing()
    );
    if reached.missing().is_empty() {
        Ok(())
    } else {
        Err("Not every number was reached.".into())
    }
}
