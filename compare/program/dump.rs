//! Data files of cases with their right answers. README.md says how they are written.

use std::{
    collections::BTreeMap,
    fmt::Write,
    fs,
    io::{self},
};

use crate::{
    coverage,
    generate::{self, Case},
    oracle,
    words::Answer,
};

pub struct Judged {
    pub case: Case,
    pub answer: Answer,
}

/// The bytes of a file that are written out: all but its last two without the zeros at their
/// end, and the last two. A file of one byte has no last two.
fn split(file: &[u8]) -> (&[u8], &[u8]) {
    if file.len() < 2 {
        return (file, &[]);
    }
    let (body, tail) = file.split_at(file.len() - 2);
    let zeros = body.iter().rev().take_while(|b| **b == 0).count();
    (&body[..body.len() - zeros], tail)
}

fn without_zeros(words: &[u64]) -> &[u64] {
    let zeros = words.iter().rev().take_while(|w| **w == 0).count();
    &words[..words.len() - zeros]
}

pub fn binary(cases: &[Judged]) -> Vec<u8> {
    let mut out = (cases.len() as u32).to_le_bytes().to_vec();
    for judged in cases {
        let (body, tail) = split(&judged.case.file);
        let numbers = [judged.case.file.len(), body.len(), judged.case.la, judged.case.lt];
        numbers.into_iter().for_each(|n| out.extend_from_slice(&(n as u32).to_le_bytes()));
        out.extend_from_slice(body);
        out.extend_from_slice(tail);
        judged.answer.result.iter().for_each(|word| short(&mut out, *word));
        for list in [&judged.answer.actions, &judged.answer.temporaries] {
            let words = without_zeros(list);
            out.extend_from_slice(&(words.len() as u32).to_le_bytes());
            words.iter().for_each(|word| short(&mut out, *word));
        }
    }
    out
}

/// A word as one byte that says how many bytes follow, and those, the lowest first.
fn short(out: &mut Vec<u8>, word: u64) {
    let count = 8 - word.leading_zeros() as usize / 8;
    out.push(count as u8);
    out.extend_from_slice(&word.to_le_bytes()[..count]);
}

pub fn text(cases: &[Judged]) -> String {
    let mut out = String::new();
    for judged in cases {
        let (la, lt) = (judged.case.la, judged.case.lt);
        write!(out, "{} {la} {lt}", file_text(&judged.case.file)).unwrap();
        judged.answer.result.iter().for_each(|word| write!(out, " {word}").unwrap());
        for list in [&judged.answer.actions, &judged.answer.temporaries] {
            let words = without_zeros(list);
            write!(out, " {}", words.len()).unwrap();
            words.iter().for_each(|word| write!(out, " {word}").unwrap());
        }
        out.push('\n');
    }
    out
}

/// A file as its body and its last two bytes, in hexadecimal.
pub fn file_text(file: &[u8]) -> String {
    let (body, tail) = split(file);
    format!("{} {} {}", file.len(), hex(body), hex(tail))
}

fn hex(bytes: &[u8]) -> String {
    if bytes.is_empty() {
        return "-".into();
    }
    bytes.iter().map(|b| format!("{b:02x}")).collect()
}

/// Small cases stay within these; a refusal that needs more pushes may lend more words.
const SMALL_FILE: usize = 1_024;
const SMALL_ACTIONS: usize = 480;
const SMALL_TEMPORARIES: usize = 16;

fn is_small(case: &Case, answer: &Answer) -> bool {
    let needs_room = [10, 14].contains(&answer.result[0]);
    case.file.len() <= SMALL_FILE
        && (case.la <= SMALL_ACTIONS || needs_room)
        && (case.lt <= SMALL_TEMPORARIES || needs_room)
}

/// Larger cases than these would fill a data file by themselves.
const MOST_BYTES: usize = 16_384;
const MOST_WORDS: usize = 8_000;

fn is_storable(case: &Case, answer: &Answer) -> bool {
    split(&case.file).0.len() <= MOST_BYTES && without_zeros(&answer.actions).len() <= MOST_WORDS
}

/// Makes the lent lengths small where they are only roomy.
fn tighten(case: &mut Case) {
    case.la = case.la.min(SMALL_ACTIONS);
    case.lt = case.lt.min(SMALL_TEMPORARIES);
}

/// Chooses cases so that what is rare comes as often as it can be had: a case is taken if it has
/// something that was taken seldom, and what counts as seldom rises as fewer such cases come.
/// Half of the cases are accepted ones.
struct Chooser {
    seen: BTreeMap<String, usize>,
    seldom: usize,
    passed: usize,
    /// Cases still wanted, refused and accepted.
    wanted: [usize; 2],
}

impl Chooser {
    fn takes(&mut self, case: &Case, answer: &Answer) -> bool {
        let accepted = (answer.result[0] == 0) as usize;
        if self.wanted[accepted] == 0 {
            return false;
        }
        let features = coverage::features(&case.file, answer);
        let rarest = features.iter().map(|f| self.seen.get(f).copied().unwrap_or(0)).min();
        if rarest.unwrap_or(0) >= self.seldom {
            self.passed += 1;
            if self.passed == 200 {
                (self.passed, self.seldom) = (0, self.seldom + 1);
            }
            return false;
        }
        self.passed = 0;
        self.wanted[accepted] -= 1;
        features.into_iter().for_each(|f| *self.seen.entry(f).or_default() += 1);
        true
    }
}

/// Cases spread over all that the generator reaches, those of few bytes first.
pub fn choose(count: usize, seed: u64, small: bool) -> Result<Vec<Judged>, String> {
    let wanted = [count - count / 2, count / 2];
    let mut chooser = Chooser { seen: BTreeMap::new(), seldom: 1, passed: 0, wanted };
    let mut chosen = vec![];
    for number in 0.. {
        if chosen.len() == count {
            break;
        }
        // Longer sections are a part of what is not kept small.
        let mut case = generate::case(seed, number, small || number % 4 != 0);
        let mut answer = judge(&case)?;
        if small && !is_small(&case, &answer) {
            tighten(&mut case);
            answer = judge(&case)?;
            if !is_small(&case, &answer) || answer.result[0] == 12 {
                continue;
            }
        }
        if is_storable(&case, &answer) && chooser.takes(&case, &answer) {
            chosen.push(Judged { case, answer });
        }
    }
    chosen.sort_by_key(|judged| split(&judged.case.file).0.len());
    Ok(chosen)
}

fn judge(case: &Case) -> Result<Answer, String> {
    oracle::judge(&case.file, case.la, case.lt).map_err(|broken| broken.0)
}

pub fn write(count: usize, seed: u64, path: &str, as_text: bool) -> Result<(), String> {
    let cases = choose(count, seed, as_text)?;
    let done: io::Result<()> = match as_text {
        true => fs::write(path, text(&cases)),
        false => fs::write(path, binary(&cases)),
    };
    done.map_err(|e| format!("{path}: {e}"))?;
    let mut reached = coverage::Coverage::default();
    cases.iter().for_each(|j| reached.add(&coverage::features(&j.case.file, &j.answer), &j.answer));
    println!("{} cases in {path}; numbers not in it: {:?}", cases.len(), reached.missing());
    println!("{:?}", reached.refusals);
    Ok(())
}
