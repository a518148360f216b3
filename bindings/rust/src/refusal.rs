//! Why a section is refused.

use std::{error, fmt};

#[derive(Debug, Clone, Copy, PartialEq, Eq)]
pub struct Refusal {
    pub number: u8,
    /// The statement, counted from 0 in file order, macro bodies included. Not there for what is
    /// wrong with the file.
    pub ordinal: Option<u16>,
    /// Errors recorded about sizes; not 0 only where the number is 51.
    pub errors: u64,
}

impl Refusal {
    /// What the number means.
    pub fn reason(&self) -> &'static str {
        match self.number {
            1 => "the file is empty, above 65,536 bytes or not whole blocks of 512",
            2 => "a block's check is wrong",
            3 => "the stream is cut off, has an unknown code or is not zero after its end",
            4 => "something is outside a limit, or the rule set is not 0",
            5 => "an index names nothing",
            6 => "a name stands twice",
            10 => "this would be statement number 4,097",
            11 => "macros are called more than 16 deep",
            12 => "the actions do not fit in the list",
            13 => "the temporaries do not fit in their list, or are more than 512",
            14 => "there are more than 256 labels",
            20 => "a statement follows an export",
            21 => "a local is declared again",
            22 => "a name is not defined",
            23 => "a symbol is of the wrong kind",
            24 => "the table that is built is no subtable of this section",
            25 => "a delay slot's argument is not 1",
            26 => "a macro is called with another count of arguments",
            27 => "a label is placed twice",
            28 => "the store is to no address",
            29 => "a direct jump goes to no local, register, field or subtable",
            30 => "the address of what is no local, register, field or subtable is taken",
            31 => "the address of a local at an offset is taken",
            32 => "the constant pool is used, which is not supported",
            33 => "a built-in function is called with another count of arguments",
            34 => "a macro is called in an expression",
            35 => "a subpiece's argument is not one integer below 256",
            36 => "a slice goes past its end",
            37 => "the target cannot be assigned to",
            38 => "the const space is used on what is no local and no constant",
            39 => "there is no default space",
            40 => "the space is neither RAM nor registers",
            41 => "a constant or a mask is shifted by 64 bits or more",
            42 => "an offset is past 65,535",
            50 => "the size of a subpiece is not known",
            51 => "sizes do not fit",
            _ => "the reason is not known",
        }
    }
}

impl fmt::Display for Refusal {
    fn fmt(&self, f: &mut fmt::Formatter<'_>) -> fmt::Result {
        write!(f, "refused {}", self.number)?;
        if let Some(ordinal) = self.ordinal {
            write!(f, " at statement {ordinal}")?;
        }
        write!(f, ": {}", self.reason())?;
        match self.errors {
            0 => Ok(()),
            1 => write!(f, " (1 error)"),
            errors => write!(f, " ({errors} errors)"),
        }
    }
}

impl error::Error for Refusal {}
