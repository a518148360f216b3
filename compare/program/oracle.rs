//! The judge: what document 01 says the answer is, by the original's own `resolve`.
//!
//! Each section goes through two copies of the original. The unchanged one gives the list or the
//! message. The marked one tells what the original does not say: ordinals, counts and where an
//! added limit is met. Where no limit is met both must do the same, or the judge is broken.

use std::{
    any::Any,
    panic::{self, AssertUnwindSafe},
};

use marks::{Limit, Marks};
use section::{read, Section, NONE};
use sleigh_parse::ast::Statement;

use crate::{
    messages,
    words::{Accepted, Answer, ACTION},
};

const NOWHERE: u64 = NONE as u64;

/// The judge could not tell, which is a fault of this program and never an answer.
#[derive(Debug)]
pub struct Broken(pub String);

/// What a run of one copy came to.
enum Ended {
    Accepted(Accepted),
    Message(String),
    Panic(String),
    Limit(u64),
}

/// Counts of the marked run, for choosing lent lengths that lie at an edge.
#[derive(Clone, Copy, Default)]
pub struct Needs {
    pub actions: usize,
    pub temporaries: usize,
}

/// Panics of the original are answers here, so they are not printed.
pub fn quiet() {
    // The original puts a backtrace into its messages where one is to be had.
    std::env::set_var("RUST_LIB_BACKTRACE", "0");
    panic::set_hook(Box::new(|info| {
        let place = info.location().map_or("", |place| place.file());
        if !place.contains("sleigh-compile")
            && !place.contains("sleigh-marked")
            && !place.contains("sleigh-runtime")
        {
            eprintln!("{info}");
        }
    }));
}

macro_rules! run {
    ($ready:expr) => {
        match panic::catch_unwind(AssertUnwindSafe(|| $ready.resolve())) {
            Err(payload) => ended_by(payload),
            Ok(Err(message)) => Ended::Message(message),
            Ok(Ok(outcome)) => Ended::Accepted(Accepted {
                actions: outcome.actions,
                export: outcome.export,
                temporaries: outcome.temporaries,
                labels: outcome.labels as u64,
            }),
        }
    };
}

fn ended_by(payload: Box<dyn Any + Send>) -> Ended {
    if let Some(limit) = payload.downcast_ref::<Limit>() {
        return Ended::Limit(limit.0);
    }
    let text = payload.downcast_ref::<String>().cloned();
    let text = text.or_else(|| payload.downcast_ref::<&str>().map(|s| s.to_string()));
    Ended::Panic(text.unwrap_or_default())
}

pub fn judge(file: &[u8], la: usize, lt: usize) -> Result<Answer, Broken> {
    match read::read(file) {
        Err(number) => Ok(Answer::refused(number, NOWHERE, 0, la, lt)),
        Ok(section) => judge_section(&section, la, lt),
    }
}

pub fn judge_section(section: &Section, la: usize, lt: usize) -> Result<Answer, Broken> {
    let Some(room) = (la / ACTION).checked_sub(section.subtables.len()) else {
        return Ok(Answer::refused(12, NOWHERE, 0, la, lt));
    };
    let marked = sleigh_marked::door::Ready::new(section);
    marks::start(room, lt);
    let seen = run!(marked);
    let trace = Trace { marks: marks::take(), ready: &marked };
    if let Ended::Limit(number) = seen {
        return Ok(Answer::refused(number, trace.begun()?, 0, la, lt));
    }
    let original = run!(sleigh_compile::door::Ready::new(section));
    let answer = trace.answer(&original, section, la, lt)?;
    let again = trace.answer(&seen, section, la, lt)?;
    if answer != again || !same(&original, &seen) {
        return Err(Broken("the marked copy and the original differ".into()));
    }
    Ok(answer)
}

fn same(a: &Ended, b: &Ended) -> bool {
    match (a, b) {
        (Ended::Accepted(_), Ended::Accepted(_)) => true,
        (Ended::Message(a), Ended::Message(b)) => a == b,
        (Ended::Panic(a), Ended::Panic(b)) => a == b,
        _ => false,
    }
}

/// The marked copy alone, with room for everything: the refusal's number and what was needed.
pub fn quick(section: &Section) -> (u64, Needs) {
    let marked = sleigh_marked::door::Ready::new(section);
    marks::start(usize::MAX, usize::MAX);
    let seen = run!(marked);
    let marks = marks::take();
    let needs =
        Needs { actions: marks.pushes + section.subtables.len(), temporaries: marks.temporaries };
    let number = match &seen {
        Ended::Accepted(_) => 0,
        Ended::Limit(number) => *number,
        Ended::Panic(text) => messages::panic_number(text).unwrap_or(u64::MAX),
        Ended::Message(text) if messages::is_recorded(text) => 51,
        Ended::Message(text) => inner_number(text),
    };
    (number, needs)
}

/// The number of a message whose heads are not at hand: enough to steer the generator.
fn inner_number(text: &str) -> u64 {
    let tails = text.match_indices(": ").map(|(i, _)| &text[i + 2..]);
    std::iter::once(text).chain(tails).find_map(messages::number).unwrap_or(u64::MAX)
}

/// The marks of one run, with the statements that the addresses in them are.
struct Trace<'a> {
    marks: Marks,
    ready: &'a sleigh_marked::door::Ready<'a>,
}

impl Trace<'_> {
    fn ordinal(&self, address: usize) -> Result<u64, Broken> {
        let width = std::mem::size_of::<Statement>();
        for run in self.ready.runs() {
            let start = run.statements.as_ptr() as usize;
            if start <= address && address < start + width * run.statements.len() {
                return Ok((run.first + (address - start) / width) as u64);
            }
        }
        Err(Broken("a mark names no statement of the file".into()))
    }

    fn begun(&self) -> Result<u64, Broken> {
        self.ordinal(self.marks.begun)
    }

    /// What the original shows for the statement with this ordinal.
    fn shown(&self, ordinal: u64) -> String {
        let runs = self.ready.runs();
        let mut statements = runs.iter().flat_map(|run| run.statements);
        statements.nth(ordinal as usize).map_or_else(String::new, |s| self.ready.show(s))
    }

    fn answer(&self, e: &Ended, s: &Section, la: usize, lt: usize) -> Result<Answer, Broken> {
        match e {
            Ended::Accepted(outcome) => {
                let count = self.marks.statements as u64;
                if s.statement_count() != Some(count) {
                    return Err(Broken("the two statement counts differ".into()));
                }
                Ok(Answer::accepted(outcome, count, la, lt))
            }
            Ended::Message(text) => {
                let (number, ordinal, errors) = self.refusal(text)?;
                Ok(Answer::refused(number, ordinal, errors, la, lt))
            }
            Ended::Panic(text) => match messages::panic_number(text) {
                Some(number) => Ok(Answer::refused(number, self.begun()?, 0, la, lt)),
                None => Err(Broken(format!("an unknown panic: {text}"))),
            },
            Ended::Limit(_) => Err(Broken("the original met a mark".into())),
        }
    }

    /// A message's number, ordinal and count of errors. The ordinal is the marks'; the text must
    /// name the same statements.
    fn refusal(&self, text: &str) -> Result<(u64, u64, u64), Broken> {
        let wrong = || Broken(format!("marks and message differ: {text}"));
        if messages::is_recorded(text) {
            let count = self.marks.recorded.len();
            let first = self.ordinal(*self.marks.recorded.first().ok_or_else(wrong)?)?;
            let agree = messages::recorded_count(text) == count
                && messages::first_recorded(text, &self.shown(first));
            return if agree { Ok((51, first, count as u64)) } else { Err(wrong()) };
        }
        let begun = self.begun()?;
        if messages::number(text) == Some(50) {
            return Ok((50, begun, 0));
        }
        let mut heads = vec![];
        for call in &self.marks.calls {
            heads.push(self.shown(self.ordinal(*call)?));
        }
        heads.push(self.shown(begun));
        let inner = messages::strip(text, &heads).ok_or_else(wrong)?;
        let number = messages::number(inner).ok_or_else(wrong)?;
        Ok((number, begun, 0))
    }
}
