//! A second checker, written from document 01 alone: the conditions under "The action list" and
//! the rules under "Sizes". It says why a list is refused, which the library does not.

use std::collections::HashSet;

use crate::words::ACTION;

const NO_SIZE: u64 = 65_535;
const LABELS: u64 = 256;
const USER_OPS: u64 = 256;
const ARGS: u64 = 6;
const HINTS: u64 = 3;
const ACCESS: u64 = 1_024;
const INPUTS: usize = 8;

/// What a list is checked against.
#[derive(Debug, Clone, Copy, PartialEq)]
pub struct Counts {
    pub actions: u64,
    pub temporaries: u64,
    pub subtables: u64,
    pub pointer_size: u64,
}

#[derive(Debug, Clone, Copy, PartialEq, Eq, PartialOrd, Ord)]
pub enum Reason {
    DoesNotFit,
    TailNotZero,
    ActionKind,
    Operation,
    Number,
    InputCount,
    OutputMissing,
    OutputTooMany,
    UnusedNotZero,
    ValueKind,
    ValueWord,
    InstructionNumber,
    TemporaryCount,
    SubtableCount,
    BuildCount,
    AddressBase,
    Unsized,
    FirstAndOutput,
    AllThree,
    InputsDiffer,
    OutputNotOne,
    NotAllOne,
    PointerSize,
    Condition,
    LabelTwice,
    NotBuilt,
}

impl Reason {
    pub const ALL: [(Reason, &'static str); 26] = [
        (Reason::DoesNotFit, "the actions do not fit"),
        (Reason::TailNotZero, "a word behind the actions is not zero"),
        (Reason::ActionKind, "no such kind of action"),
        (Reason::Operation, "no such operation (a subpiece has none)"),
        (Reason::Number, "the operation's number"),
        (Reason::InputCount, "the input count"),
        (Reason::OutputMissing, "an output is missing"),
        (Reason::OutputTooMany, "an output where there is none"),
        (Reason::UnusedNotZero, "an unused word of an action is not zero"),
        (Reason::ValueKind, "no such kind of value"),
        (Reason::ValueWord, "a value's second word from 2^40 on"),
        (Reason::InstructionNumber, "InstStart or InstNext with a number"),
        (Reason::TemporaryCount, "a temporary outside its count"),
        (Reason::SubtableCount, "a subtable outside its count"),
        (Reason::BuildCount, "a Build outside the count of subtables"),
        (Reason::AddressBase, "an AddressOf base with size or offset"),
        (Reason::Unsized, "an operand without a size"),
        (Reason::FirstAndOutput, "input 1 and output differ in size"),
        (Reason::AllThree, "the three operands differ in size"),
        (Reason::InputsDiffer, "the inputs differ in size"),
        (Reason::OutputNotOne, "the output's size is not 1"),
        (Reason::NotAllOne, "not all sizes are 1"),
        (Reason::PointerSize, "not a pointer's size"),
        (Reason::Condition, "the condition's size is not 1"),
        (Reason::LabelTwice, "a label placed twice"),
        (Reason::NotBuilt, "a subtable that is not built"),
    ];
}

type Checked<T> = Result<T, Reason>;

fn demand(holds: bool, reason: Reason) -> Checked<()> {
    match holds {
        true => Ok(()),
        false => Err(reason),
    }
}

/// The size rules, by operation.
enum Rule {
    FirstAndOutput,
    AllThree,
    InputsThenOne,
    AllOne,
    OutputOne,
    Pointer,
    Condition,
    Free,
}

fn rule(operation: u64) -> Rule {
    match operation {
        0..=6 | 16..=19 | 24..=26 => Rule::AllThree,
        7..=9 | 40 | 41 | 45..=50 | 57 => Rule::FirstAndOutput,
        10..=15 | 20..=23 | 30..=32 => Rule::InputsThenOne,
        27..=29 | 39 => Rule::AllOne,
        42 => Rule::OutputOne,
        58 | 59 => Rule::Pointer,
        60 | 61 => Rule::Condition,
        _ => Rule::Free,
    }
}

/// A row's words in their places.
struct Row<'a> {
    words: &'a [u64],
    counts: Counts,
}

impl Row<'_> {
    fn head(&self) -> (u64, u64, u64) {
        (self.words[0], self.words[1], self.words[2])
    }

    /// The size of a value whose words are valid.
    fn value(&self, at: usize) -> Checked<u64> {
        let (number, word) = (self.words[at], self.words[at + 1]);
        demand(word >> 40 == 0, Reason::ValueWord)?;
        match word & 255 {
            0 | 1 => demand(number == 0, Reason::InstructionNumber)?,
            2 | 3 | 7 => {}
            4 | 5 => demand(number < self.counts.subtables, Reason::SubtableCount)?,
            6 => demand(number < self.counts.temporaries, Reason::TemporaryCount)?,
            _ => return Err(Reason::ValueKind),
        }
        Ok(word >> 24)
    }

    fn unused(&self, from: usize) -> Checked<()> {
        demand(self.words[from..].iter().all(|word| *word == 0), Reason::UnusedNotZero)
    }

    /// So many inputs, all valid, and zero behind them.
    fn inputs(&self, count: u64) -> Checked<Vec<u64>> {
        demand(self.words[3] == count, Reason::InputCount)?;
        let end = 6 + 2 * count as usize;
        let sizes = (6..end).step_by(2).map(|at| self.value(at)).collect::<Checked<_>>()?;
        self.unused(end)?;
        Ok(sizes)
    }

    fn no_output(&self, mark: u64) -> Checked<()> {
        demand(self.words[4..6] == [0, mark], Reason::OutputTooMany)
    }

    fn check(&self) -> Checked<()> {
        let (kind, operation, number) = self.head();
        if kind != 0 {
            demand(kind <= 5, Reason::ActionKind)?;
            demand(operation == 0, Reason::Operation)?;
        }
        match kind {
            0 => self.check_operation(operation, number),
            1 => {
                demand(number == 0, Reason::Number)?;
                self.value(4)?;
                self.inputs(1)?;
                demand(self.words[7] >> 8 == NO_SIZE << 16, Reason::AddressBase)
            }
            2 => {
                demand(number <= ACCESS, Reason::Number)?;
                self.value(4)?;
                self.inputs(1).map(drop)
            }
            3 => {
                demand(number <= ACCESS, Reason::Number)?;
                self.no_output(0)?;
                self.inputs(2).map(drop)
            }
            4 => {
                demand(number == 0, Reason::Number)?;
                self.no_output(0)?;
                self.inputs(0).map(drop)
            }
            _ => {
                demand(number < self.counts.subtables, Reason::BuildCount)?;
                self.no_output(0)?;
                self.inputs(0).map(drop)
            }
        }
    }

    fn check_operation(&self, operation: u64, number: u64) -> Checked<()> {
        let below = match operation {
            0..=32 | 39..=59 | 65 => 1,
            60 => HINTS,
            61 | 62 => LABELS,
            63 => USER_OPS,
            64 => ARGS,
            _ => return Err(Reason::Operation),
        };
        demand(number < below, Reason::Number)?;
        let has_output = self.words[5] != 255;
        let inputs = match operation {
            0..=32 | 59..=61 => 2,
            39..=58 | 64 => 1,
            63 => {
                let most = if has_output { 2 } else { INPUTS as u64 };
                demand(self.words[3] <= most, Reason::InputCount)?;
                self.words[3]
            }
            _ => 0,
        };
        let output = match operation {
            0..=58 => {
                demand(has_output, Reason::OutputMissing)?;
                Some(self.value(4)?)
            }
            63 if has_output => Some(self.value(4)?),
            _ => {
                self.no_output(255)?;
                None
            }
        };
        let sizes = self.inputs(inputs)?;
        demand(sizes.iter().chain(&output).all(|size| *size != NO_SIZE), Reason::Unsized)?;
        self.check_sizes(operation, &sizes, output.unwrap_or(NO_SIZE))
    }

    fn check_sizes(&self, operation: u64, inputs: &[u64], output: u64) -> Checked<()> {
        match rule(operation) {
            Rule::FirstAndOutput => demand(inputs[0] == output, Reason::FirstAndOutput),
            Rule::AllThree => {
                demand(inputs[0] == inputs[1] && inputs[1] == output, Reason::AllThree)
            }
            Rule::InputsThenOne => {
                demand(inputs[0] == inputs[1], Reason::InputsDiffer)?;
                demand(output == 1, Reason::OutputNotOne)
            }
            Rule::AllOne => {
                demand(inputs.iter().all(|size| *size == 1) && output == 1, Reason::NotAllOne)
            }
            Rule::OutputOne => demand(output == 1, Reason::OutputNotOne),
            Rule::Pointer => demand(inputs[0] == self.counts.pointer_size, Reason::PointerSize),
            Rule::Condition => demand(inputs[0] == 1, Reason::Condition),
            Rule::Free => Ok(()),
        }
    }
}

/// Why a list does not pass; `Ok` if it does.
pub fn check(list: &[u64], counts: Counts) -> Checked<()> {
    let used = counts.actions as u128 * ACTION as u128;
    demand(used <= list.len() as u128, Reason::DoesNotFit)?;
    let (actions, tail) = list.split_at(used as usize);
    let (mut placed, mut built) = (HashSet::new(), HashSet::new());
    for words in actions.chunks(ACTION) {
        let row = Row { words, counts };
        row.check()?;
        match row.head() {
            (0, 62, label) => demand(placed.insert(label), Reason::LabelTwice)?,
            (5, _, subtable) => drop(built.insert(subtable)),
            _ => {}
        }
    }
    demand(tail.iter().all(|word| *word == 0), Reason::TailNotZero)?;
    // Every one that is built is below the count, so it is enough to count them.
    demand(built.len() as u64 == counts.subtables, Reason::NotBuilt)
}
