//! The original's messages and panics as document 01's numbers.

/// A message's number, the "error resolving" heads being taken off. The texts are tried as the
/// original writes them: `Start` at a message's start, `Part` anywhere in it.
enum Text {
    Start(&'static str),
    Part(&'static str),
}

use Text::{Part, Start};

const MESSAGES: [(Text, u64); 24] = [
    (Start("Export statement must be the last statement"), 20),
    (Start("redeclaration of variable: "), 21),
    (Start("undefined symbol: "), 22),
    (Start("Table '"), 24),
    (Start("expected delayslot(1)"), 25),
    (Start("argument mismatch for macro "), 26),
    (Start("Redeclaration of existing label: "), 27),
    (Start("attempted to write to an invalid pointer: "), 28),
    (Start("unsupported expression type in direct branch"), 29),
    (Part(" invalid expression used in address-of operation"), 30),
    (Part(" unsupported base expression used in address-of operation"), 31),
    (Start("constpoolref unimplemented"), 32),
    (Start("Expected "), 33),
    (Start("macros are not allowed as expressions"), 34),
    (Start("SUBPIECE offset too large: "), 35),
    (Start("expected SUBPIECE(<const>)"), 35),
    (Start("bit slice "), 36),
    (Start("cannot assign to expression: "), 37),
    (Start("`[const]` space should only be used on a local"), 38),
    (Start("no default space"), 39),
    (Start("unexpected symbol "), 23),
    (Part(" is not allowed in this scope"), 23),
    (Part(" is not a "), 23),
    (Start("output size for subpiece not known: "), 50),
];

pub fn number(message: &str) -> Option<u64> {
    let fits = |text: &Text| match text {
        Start(start) => message.starts_with(start),
        Part(part) => message.contains(part),
    };
    MESSAGES.iter().find(|(text, _)| fits(text)).map(|(_, number)| *number)
}

pub fn panic_number(message: &str) -> Option<u64> {
    match message {
        "attempt to shift left with overflow" | "attempt to shift right with overflow" => Some(41),
        "attempt to add with overflow" => Some(42),
        _ if message.starts_with("unknown space_id: ") => Some(40),
        _ => None,
    }
}

const HEAD: &str = "error resolving: ";
const RECORDED: &str = "error in \"";

/// The message inside the heads of the statements around it, outermost first. `None` where the
/// heads are not exactly these statements'.
pub fn strip<'a>(message: &'a str, statements: &[String]) -> Option<&'a str> {
    statements.iter().try_fold(message, |rest, shown| {
        rest.strip_prefix(HEAD)?.strip_prefix(shown.as_str())?.strip_prefix(": ")
    })
}

pub fn is_recorded(message: &str) -> bool {
    message.starts_with(RECORDED)
}

/// How many recorded errors the text has, each on a line of its own.
pub fn recorded_count(message: &str) -> usize {
    message.lines().filter(|line| line.starts_with(RECORDED)).count()
}

/// Whether the first recorded error names this statement.
pub fn first_recorded(message: &str, shown: &str) -> bool {
    message
        .strip_prefix(RECORDED)
        .and_then(|rest| rest.strip_prefix(shown))
        .is_some_and(|rest| rest.starts_with("\": "))
}
