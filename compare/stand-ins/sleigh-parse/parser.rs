//! Stand-in for the parser: a list of names. It parses nothing.

use std::sync::LazyLock;

use crate::ast::Ident;

/// A name's index in the section file's names.
#[derive(Debug, Copy, Clone, PartialEq, Eq, Hash)]
pub struct StrIndex(pub u32);

/// The first index of the names that the symbol table asks for by itself. No file has so many
/// names, so none of them is ever one of a file's.
const OWN_NAMES: u32 = 65_536;
const MOST_NAMES: u32 = 1_024;

pub struct Source {
    pub name: String,
    pub lines: Vec<u32>,
}

/// What names are shown as: `n` and the index, so that a message can be taken apart whatever
/// bytes a name has. Made once, since it is no part of the original's work.
static SHOWN: LazyLock<Vec<String>> =
    LazyLock::new(|| (0..MOST_NAMES).map(|i| format!("n{i}")).collect());

#[derive(Default)]
pub struct Interner;

impl Interner {
    pub fn get(&self, index: StrIndex) -> &str {
        &SHOWN[index.0 as usize]
    }
}

#[derive(Default)]
pub struct Parser {
    pub interner: Interner,
    pub sources: Vec<Source>,
    spelled: Vec<String>,
    own: u32,
}

impl Parser {
    /// Each byte of a name stands as the character with its number, which keeps different names
    /// different and ASCII as it is.
    pub fn new(names: &[Vec<u8>]) -> Self {
        let spelled = names.iter().map(|name| spell(name)).collect();
        Self { interner: Interner, sources: vec![], spelled, own: 0 }
    }

    /// A fresh name: the symbol table's own names are replaced by the file's afterwards.
    pub fn get_ident(&mut self, _spelling: &str) -> Ident {
        self.own += 1;
        Ident(StrIndex(OWN_NAMES + self.own))
    }

    pub fn get_ident_str(&self, ident: Ident) -> &str {
        &self.spelled[ident.0 .0 as usize]
    }
}

fn spell(name: &[u8]) -> String {
    match name.is_ascii() {
        true => String::from_utf8_lossy(name).into_owned(),
        false => name.iter().map(|&b| b as char).collect(),
    }
}
