//! The twelve result numbers and the words of the two lent lists, from what `resolve` gave.

use pcode::{BranchHint, Op};
use section::NONE;
use sleigh_runtime::semantics::{Export, Local, PcodeTmp, SemanticAction, Value};

pub const ACTION: usize = 24;
pub type Numbers = [u64; 12];

/// A whole answer for one file and two lent lengths.
#[derive(Clone, PartialEq)]
pub struct Answer {
    pub result: Numbers,
    pub actions: Vec<u64>,
    pub temporaries: Vec<u64>,
}

/// What `resolve` gave, from either copy of the original.
pub struct Accepted {
    pub actions: Vec<SemanticAction>,
    pub export: Option<Export>,
    pub temporaries: Vec<PcodeTmp>,
    pub labels: u64,
}

impl Answer {
    pub fn refused(number: u64, ordinal: u64, errors: u64, la: usize, lt: usize) -> Self {
        let mut result = [0; 12];
        (result[0], result[1], result[7]) = (number, ordinal, errors);
        Self { result, actions: vec![0; la], temporaries: vec![0; lt] }
    }

    /// Words beyond the lent lengths are an error of the caller: an accepted list fits.
    pub fn accepted(outcome: &Accepted, statements: u64, la: usize, lt: usize) -> Self {
        let mut actions: Vec<u64> = outcome.actions.iter().flat_map(action).collect();
        let mut temporaries: Vec<u64> = outcome.temporaries.iter().map(temporary).collect();
        assert!(actions.len() <= la && temporaries.len() <= lt, "an accepted list does not fit");
        actions.resize(la, 0);
        temporaries.resize(lt, 0);
        Self { result: numbers(outcome, statements), actions, temporaries }
    }
}

fn numbers(outcome: &Accepted, statements: u64) -> Numbers {
    let actions = outcome.actions.len() as u64;
    let temporaries = outcome.temporaries.len() as u64;
    let points = (2 * actions + temporaries + 5) / 10;
    let mut result = [0; 12];
    result[..8].copy_from_slice(&[
        0,
        NONE as u64,
        statements,
        actions,
        temporaries,
        outcome.labels,
        points,
        0,
    ]);
    let (kind, value, size) = match outcome.export {
        None => return result,
        Some(Export::Value(value)) => (1, value, 0),
        Some(Export::RamRef(value, size)) => (2, value, size),
        Some(Export::RegisterRef(value, size)) => (3, value, size),
    };
    let pair = pair(value);
    result[8..].copy_from_slice(&[kind, pair[0], pair[1], size as u64]);
    result
}

fn temporary(tmp: &PcodeTmp) -> u64 {
    let name = tmp.name.map_or(NONE, section::index);
    name as u64 + 65_536 * tmp.size.unwrap_or(NONE) as u64
}

fn pair(value: Value) -> [u64; 2] {
    let (kind, number) = match value.local {
        Local::InstStart => (0, 0),
        Local::InstNext => (1, 0),
        Local::Register(id) => (2, id as u64),
        Local::Field(index) => (3, index as u64),
        Local::Subtable(index) => (4, index as u64),
        Local::SubtableRef(index) => (5, index as u64),
        Local::PcodeTmp(id) => (6, id as u64),
        Local::Constant(x) => (7, x),
    };
    let size = value.size.unwrap_or(NONE) as u64;
    [number, kind + 256 * value.offset as u64 + (size << 24)]
}

fn action(action: &SemanticAction) -> [u64; ACTION] {
    match action {
        SemanticAction::Op { op, inputs, output } => {
            let (code, number) = operation(*op);
            let output = output.map_or([0, 255], pair);
            row([0, code, number], output, inputs)
        }
        SemanticAction::AddressOf { output, base } => {
            row([1, 0, 0], pair(*output), &[Value::from(*base)])
        }
        SemanticAction::LoadRegister { pointer, output, size } => {
            row([2, 0, *size as u64], pair(*output), &[*pointer])
        }
        SemanticAction::StoreRegister { pointer, value, size } => {
            row([3, 0, *size as u64], [0, 0], &[*pointer, *value])
        }
        SemanticAction::DelaySlot => row([4, 0, 0], [0, 0], &[]),
        SemanticAction::Build(index) => row([5, 0, *index as u64], [0, 0], &[]),
    }
}

fn row(head: [u64; 3], output: [u64; 2], inputs: &[Value]) -> [u64; ACTION] {
    let mut words = [0; ACTION];
    words[..3].copy_from_slice(&head);
    words[3] = inputs.len() as u64;
    words[4..6].copy_from_slice(&output);
    for (i, input) in inputs.iter().enumerate() {
        words[6 + 2 * i..8 + 2 * i].copy_from_slice(&pair(*input));
    }
    words
}

fn hint(hint: BranchHint) -> u64 {
    match hint {
        BranchHint::Jump => 0,
        BranchHint::Call => 1,
        BranchHint::Return => 2,
    }
}

/// An operation's code and its number. 0 to 32 is the order of `ast::PcodeOp`.
fn operation(op: Op) -> (u64, u64) {
    let code = match op {
        Op::Branch(h) => return (60, hint(h)),
        Op::PcodeBranch(label) => return (61, label as u64),
        Op::PcodeLabel(label) => return (62, label as u64),
        Op::PcodeOp(id) => return (63, id as u64),
        Op::Arg(i) => return (64, i as u64),
        Op::Load(_) => 58,
        Op::Store(_) => 59,
        Op::Copy => 57,
        Op::Invalid => 65,
        other => two_inputs(other).or_else(|| one_input(other)).expect("an operation in a list"),
    };
    (code, 0)
}

fn two_inputs(op: Op) -> Option<u64> {
    const ORDER: [Op; 33] = [
        Op::IntMul,
        Op::IntDiv,
        Op::IntSignedDiv,
        Op::IntRem,
        Op::IntSignedRem,
        Op::IntAdd,
        Op::IntSub,
        Op::IntLeft,
        Op::IntRight,
        Op::IntSignedRight,
        Op::IntSignedLess,
        Op::IntSignedLessEqual,
        Op::IntLess,
        Op::IntLessEqual,
        Op::IntEqual,
        Op::IntNotEqual,
        Op::FloatDiv,
        Op::FloatMul,
        Op::FloatAdd,
        Op::FloatSub,
        Op::FloatLess,
        Op::FloatLessEqual,
        Op::FloatEqual,
        Op::FloatNotEqual,
        Op::IntAnd,
        Op::IntXor,
        Op::IntOr,
        Op::BoolXor,
        Op::BoolAnd,
        Op::BoolOr,
        Op::IntCarry,
        Op::IntSignedCarry,
        Op::IntSignedBorrow,
    ];
    ORDER.iter().position(|x| *x == op).map(|i| i as u64)
}

/// 39 to 56: the one-input spellings in the order of `translate_inbuilt_func`, without zxt.
fn one_input(op: Op) -> Option<u64> {
    const ORDER: [Op; 18] = [
        Op::BoolNot,
        Op::IntNot,
        Op::IntNegate,
        Op::FloatIsNan,
        Op::ZeroExtend,
        Op::SignExtend,
        Op::FloatNegate,
        Op::FloatAbs,
        Op::FloatSqrt,
        Op::FloatCeil,
        Op::FloatFloor,
        Op::FloatRound,
        Op::FloatToInt,
        Op::IntToFloat,
        Op::UintToFloat,
        Op::FloatToFloat,
        Op::IntCountOnes,
        Op::IntCountLeadingZeroes,
    ];
    ORDER.iter().position(|x| *x == op).map(|i| 39 + i as u64)
}
