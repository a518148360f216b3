//! Stand-in for pattern expressions, which belong to disassembly and not to semantic sections.

pub type PatternExprRange = (u32, u32);

pub enum PatternExprOp<T> {
    Value(T),
    Constant(u64),
    Op(sleigh_parse::ast::PatternOp),
    Not,
    Negate,
}
