//! What the marked copy of the original tells: which statement was begun last, what was counted,
//! and where a limit that document 01 adds is met. The original has neither ordinals nor these
//! limits, so a copy with calls of these functions put in runs beside the unchanged one.

use std::{cell::RefCell, panic};

pub const STATEMENTS: usize = 4_096;
pub const DEPTH: usize = 16;
pub const TEMPORARIES: usize = 512;
pub const LABELS: usize = 256;

/// What is carried by the unwinding where a limit is met.
pub struct Limit(pub u64);

#[derive(Clone, Default)]
pub struct Marks {
    /// Room for actions, subtables taken off, and for temporaries.
    pub room: usize,
    pub lent: usize,
    /// Addresses of the statement begun last and of the calls around it.
    pub begun: usize,
    pub calls: Vec<usize>,
    pub statements: usize,
    pub pushes: usize,
    pub temporaries: usize,
    /// Addresses of the statements that errors were recorded at.
    pub recorded: Vec<usize>,
}

thread_local! {
    static MARKS: RefCell<Marks> = RefCell::default();
}

pub fn start(room: usize, lent: usize) {
    MARKS.set(Marks { room, lent, ..Marks::default() });
}

pub fn take() -> Marks {
    MARKS.take()
}

fn update(change: impl FnOnce(&mut Marks) -> Option<u64>) {
    if let Some(number) = MARKS.with_borrow_mut(change) {
        panic::resume_unwind(Box::new(Limit(number)));
    }
}

/// A statement is about to begin.
pub fn begin<T>(statement: &T) {
    update(|marks| {
        marks.begun = statement as *const T as usize;
        None
    });
}

/// It does not follow an export.
pub fn count() {
    update(|marks| {
        marks.statements += 1;
        (marks.statements > STATEMENTS).then_some(10)
    });
}

/// A macro's arguments are resolved and their number is right.
pub fn enter() {
    update(|marks| {
        marks.calls.push(marks.begun);
        (marks.calls.len() > DEPTH).then_some(11)
    });
}

pub fn leave() {
    update(|marks| {
        marks.calls.pop();
        None
    });
}

pub fn push() {
    update(|marks| {
        marks.pushes += 1;
        (marks.pushes > marks.room).then_some(12)
    });
}

pub fn temporary() {
    update(|marks| {
        marks.temporaries += 1;
        (marks.temporaries > TEMPORARIES.min(marks.lent)).then_some(13)
    });
}

/// A label is made, `before` being how many there were.
pub fn label(before: u16) {
    update(|_| (before as usize >= LABELS).then_some(14));
}

pub fn record<T>(statement: &T) {
    update(|marks| {
        marks.recorded.push(statement as *const T as usize);
        None
    });
}
