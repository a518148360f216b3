//! Names of the `pcode` crate that the original's text uses. No behaviour is here but `mask`,
//! which is written from document 01.

pub type MemId = u16;
pub type VarOffset = u8;
pub type VarSize = u8;
pub type HookId = u16;

pub const RAM_SPACE: MemId = 0;
pub const REGISTER_SPACE: MemId = 1;
pub const RESERVED_SPACE_END: MemId = 2;

/// The low `bits` bits set, all 64 from `bits` = 64.
pub fn mask(bits: u64) -> u64 {
    if bits >= 64 {
        u64::MAX
    } else {
        (1 << bits) - 1
    }
}

pub fn sxt64(_value: u64, _bits: u64) -> u64 {
    unimplemented!("not needed by `resolve`")
}

#[derive(Debug, Copy, Clone, PartialEq, Eq)]
pub enum BranchHint {
    Jump,
    Call,
    Return,
}

/// Every operation that the original names. The ones that only an emulator makes are needed so
/// that its `match` compiles.
#[derive(Debug, Copy, Clone, PartialEq, Eq)]
pub enum Op {
    Copy,
    Subpiece(VarOffset),
    ZeroExtend,
    SignExtend,
    IntToFloat,
    UintToFloat,
    FloatToFloat,
    FloatToInt,
    IntCountOnes,
    IntCountLeadingZeroes,
    IntAdd,
    IntSub,
    IntXor,
    IntOr,
    IntAnd,
    IntMul,
    IntDiv,
    IntSignedDiv,
    IntRem,
    IntSignedRem,
    IntLeft,
    IntRight,
    IntSignedRight,
    IntRotateLeft,
    IntRotateRight,
    IntEqual,
    IntNotEqual,
    IntLess,
    IntSignedLess,
    IntLessEqual,
    IntSignedLessEqual,
    IntCarry,
    IntSignedCarry,
    IntSignedBorrow,
    IntNot,
    IntNegate,
    BoolAnd,
    BoolOr,
    BoolXor,
    BoolNot,
    FloatAdd,
    FloatSub,
    FloatMul,
    FloatDiv,
    FloatNegate,
    FloatAbs,
    FloatSqrt,
    FloatCeil,
    FloatFloor,
    FloatRound,
    FloatIsNan,
    FloatEqual,
    FloatNotEqual,
    FloatLess,
    FloatLessEqual,
    Load(MemId),
    Store(MemId),
    Branch(BranchHint),
    PcodeBranch(u16),
    PcodeLabel(u16),
    PcodeOp(u16),
    Arg(u16),
    Select(u16),
    MultiEqual,
    Hook(HookId),
    HookIf(HookId),
    InstructionMarker,
    Invalid,
    UncheckedTracerLoad(u16, u16),
    UncheckedTracerStore(u16, u16),
    TracerLoad(u16),
    TracerStore(u16),
    Exception,
    Indirect,
}

#[derive(Debug, Copy, Clone, Default)]
pub struct VarNode {
    pub id: i16,
    pub offset: VarOffset,
    pub size: VarSize,
}

impl VarNode {
    pub fn new(id: i16, size: VarSize) -> Self {
        Self { id, offset: 0, size }
    }

    pub fn slice(self, offset: VarOffset, size: VarSize) -> Self {
        Self { offset, size, ..self }
    }
}

pub struct UserOpId(pub u16);
pub struct SpaceId(pub MemId);
pub struct Block;

pub trait PcodeDisplay<C> {
    fn fmt(&self, f: &mut std::fmt::Formatter, ctx: &C) -> std::fmt::Result;

    fn display<'a>(&'a self, ctx: &'a C) -> Shown<'a, Self, C>
    where
        Self: Sized,
    {
        Shown { item: self, ctx }
    }
}

pub struct Shown<'a, T, C> {
    item: &'a T,
    ctx: &'a C,
}

impl<T: PcodeDisplay<C>, C> std::fmt::Display for Shown<'_, T, C> {
    fn fmt(&self, f: &mut std::fmt::Formatter) -> std::fmt::Result {
        self.item.fmt(f, self.ctx)
    }
}

impl PcodeDisplay<()> for VarNode {
    fn fmt(&self, _: &mut std::fmt::Formatter, _: &()) -> std::fmt::Result {
        unimplemented!("not needed by `resolve`")
    }
}
