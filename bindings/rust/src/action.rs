//! Actions and values, from the words of a list.

use std::fmt;

use crate::{ACTION_WORDS, NONE};

const NO_VALUE: u64 = 255;

#[derive(Debug, Clone, PartialEq, Eq)]
pub enum Action {
    Op { operation: Operation, inputs: Vec<Value>, output: Option<Value> },
    AddressOf { output: Value, base: Local },
    LoadRegister { pointer: Value, output: Value, size: u16 },
    StoreRegister { pointer: Value, value: Value, size: u16 },
    DelaySlot,
    Build(u32),
}

#[derive(Debug, Clone, Copy, PartialEq, Eq)]
pub struct Value {
    pub local: Local,
    /// In bytes from the start of the local.
    pub offset: u16,
    /// In bytes; 0 is a real size.
    pub size: Option<u16>,
}

/// What a value is a part of. Numbers are places in the file's lists.
#[derive(Debug, Clone, Copy, PartialEq, Eq)]
pub enum Local {
    InstStart,
    InstNext,
    Register(u32),
    Field(u32),
    Subtable(u32),
    SubtableRef(u32),
    Temporary(u32),
    Constant(u64),
}

#[derive(Debug, Clone, Copy, PartialEq, Eq)]
pub struct Temporary {
    /// A place in the file's list of names.
    pub name: Option<u16>,
    pub size: Option<u16>,
}

#[derive(Debug, Clone, Copy, PartialEq, Eq)]
pub enum Export {
    Value(Value),
    /// From the address in RAM, so many bytes.
    Ram(Value, u16),
    /// From the register with this number, so many bytes.
    Register(Value, u16),
}

#[derive(Debug, Clone, Copy, PartialEq, Eq)]
pub enum Hint {
    Jump,
    Call,
    Return,
}

macro_rules! operations {
    ($($name:ident = $code:literal,)*) => {
        #[derive(Debug, Clone, Copy, PartialEq, Eq)]
        pub enum Operation {
            $($name,)*
            Branch(Hint),
            PcodeBranch(u8),
            PcodeLabel(u8),
            /// A user op, by its place in the file's list.
            PcodeOp(u8),
            Arg(u8),
        }

        impl Operation {
            fn plain(code: u64) -> Option<Self> {
                Some(match code {
                    $($code => Self::$name,)*
                    _ => return None,
                })
            }
        }
    };
}

operations! {
    IntMul = 0,
    IntDiv = 1,
    IntSignedDiv = 2,
    IntRem = 3,
    IntSignedRem = 4,
    IntAdd = 5,
    IntSub = 6,
    IntLeft = 7,
    IntRight = 8,
    IntSignedRight = 9,
    IntSignedLess = 10,
    IntSignedLessEqual = 11,
    IntLess = 12,
    IntLessEqual = 13,
    IntEqual = 14,
    IntNotEqual = 15,
    FloatDiv = 16,
    FloatMul = 17,
    FloatAdd = 18,
    FloatSub = 19,
    FloatLess = 20,
    FloatLessEqual = 21,
    FloatEqual = 22,
    FloatNotEqual = 23,
    IntAnd = 24,
    IntXor = 25,
    IntOr = 26,
    BoolXor = 27,
    BoolAnd = 28,
    BoolOr = 29,
    IntCarry = 30,
    IntSignedCarry = 31,
    IntSignedBorrow = 32,
    BoolNot = 39,
    IntNot = 40,
    IntNegate = 41,
    FloatIsNan = 42,
    ZeroExtend = 43,
    SignExtend = 44,
    FloatNegate = 45,
    FloatAbs = 46,
    FloatSqrt = 47,
    FloatCeil = 48,
    FloatFloor = 49,
    FloatRound = 50,
    FloatToInt = 51,
    IntToFloat = 52,
    UintToFloat = 53,
    FloatToFloat = 54,
    IntCountOnes = 55,
    IntCountLeadingZeroes = 56,
    Copy = 57,
    Load = 58,
    Store = 59,
    Invalid = 65,
}

impl Operation {
    fn from_words(code: u64, number: u64) -> Option<Self> {
        let small = u8::try_from(number).ok()?;
        Some(match code {
            60 => Self::Branch(*[Hint::Jump, Hint::Call, Hint::Return].get(small as usize)?),
            61 => Self::PcodeBranch(small),
            62 => Self::PcodeLabel(small),
            63 => Self::PcodeOp(small),
            64 => Self::Arg(small),
            _ => Self::plain(code)?,
        })
    }
}

fn known(word: u64) -> Option<u16> {
    (word != NONE).then_some(word as u16)
}

impl Value {
    /// From a value's two words.
    pub fn from_words(number: u64, word: u64) -> Option<Self> {
        let small = number as u32;
        let local = match word & 255 {
            0 => Local::InstStart,
            1 => Local::InstNext,
            2 => Local::Register(small),
            3 => Local::Field(small),
            4 => Local::Subtable(small),
            5 => Local::SubtableRef(small),
            6 => Local::Temporary(small),
            7 => Local::Constant(number),
            _ => return None,
        };
        Some(Self { local, offset: (word >> 8) as u16, size: known(word >> 24) })
    }
}

impl Action {
    /// From an action's 24 words; nothing if they are none. This is no check of the list.
    pub fn from_words(words: &[u64]) -> Option<Self> {
        let words: &[u64; ACTION_WORDS] = words.try_into().ok()?;
        let value = |at: usize| Value::from_words(words[at], words[at + 1]);
        let input = |i: usize| value(6 + 2 * i);
        let (size, inputs) = (words[2] as u16, usize::try_from(words[3]).ok()?);
        Some(match words[0] {
            0 if inputs <= 8 => Self::Op {
                operation: Operation::from_words(words[1], words[2])?,
                inputs: (0..inputs).map(input).collect::<Option<_>>()?,
                output: if words[5] == NO_VALUE { None } else { Some(value(4)?) },
            },
            1 => Self::AddressOf { output: value(4)?, base: input(0)?.local },
            2 => Self::LoadRegister { pointer: input(0)?, output: value(4)?, size },
            3 => Self::StoreRegister { pointer: input(0)?, value: input(1)?, size },
            4 => Self::DelaySlot,
            5 => Self::Build(words[2] as u32),
            _ => return None,
        })
    }
}

impl Temporary {
    pub(crate) fn from_word(word: u64) -> Self {
        Self { name: known(word & NONE), size: known(word >> 16) }
    }
}

impl Export {
    pub(crate) fn from_words(words: &[u64]) -> Option<Self> {
        let value = Value::from_words(words[1], words[2]);
        let size = words[3] as u16;
        match words[0] {
            1 => value.map(Self::Value),
            2 => value.map(|pointer| Self::Ram(pointer, size)),
            3 => value.map(|pointer| Self::Register(pointer, size)),
            _ => None,
        }
    }
}

impl fmt::Display for Value {
    fn fmt(&self, f: &mut fmt::Formatter<'_>) -> fmt::Result {
        match self.local {
            Local::InstStart => write!(f, "inst_start")?,
            Local::InstNext => write!(f, "inst_next")?,
            Local::Register(id) => write!(f, "register{id}")?,
            Local::Field(id) => write!(f, "field{id}")?,
            Local::Subtable(id) => write!(f, "subtable{id}")?,
            Local::SubtableRef(id) => write!(f, "&subtable{id}")?,
            Local::Temporary(id) => write!(f, "t{id}")?,
            Local::Constant(value) => write!(f, "{value:#x}")?,
        }
        if self.offset != 0 {
            write!(f, "+{}", self.offset)?;
        }
        self.size.map_or(Ok(()), |size| write!(f, ":{size}"))
    }
}
