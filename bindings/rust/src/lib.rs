//! Resolves a SLEIGH semantic section into a list of p-code actions, and checks such lists. These
//! are safe functions over the C interface of the proved library; `docs/FORMAT.md` has the formats.
//!
//! ```no_run
//! let file = std::fs::read("samples/greater.section").unwrap();
//! match mizgalon::resolve(&file) {
//!     Ok(section) => println!("{} points, {:?}", section.points, section.actions),
//!     Err(refusal) => println!("{refusal}"),
//! }
//! ```

mod action;
mod refusal;

pub use action::{Action, Export, Hint, Local, Operation, Temporary, Value};
pub use refusal::Refusal;

/// Words of an action in a list.
pub const ACTION_WORDS: usize = 24;
/// Words that are lent for temporaries: the rules allow no more of them.
pub const MAX_TEMPORARIES: usize = 512;
/// No section has more actions. A statement pushes at most 48 (a macro call with eight user ops of
/// eight arguments), each temporary at most 8 more, and there are 4,096 and 512 of these.
pub const MAX_ACTIONS: usize = 262_144;

const FIRST_ACTIONS: usize = 128;
const NONE: u64 = 65_535;

extern "C" {
    fn mizgalon_resolve(
        file: *const u8,
        file_length: usize,
        actions: *mut u64,
        actions_length: usize,
        temporaries: *mut u64,
        temporaries_length: usize,
        result: *mut u64,
    );

    fn mizgalon_check(
        list: *const u64,
        list_length: usize,
        actions: u64,
        temporaries: u64,
        subtables: u64,
        pointer_size: u64,
    ) -> bool;
}

/// An accepted section.
#[derive(Debug, Clone, PartialEq, Eq)]
pub struct Section {
    /// Statements resolved, those of macro bodies once for each call.
    pub statements: u64,
    pub actions: Vec<Action>,
    pub temporaries: Vec<Temporary>,
    /// Labels placed.
    pub labels: u64,
    /// (2 × actions + temporaries + 5) ÷ 10, rounded down.
    pub points: u64,
    pub export: Option<Export>,
    words: Vec<u64>,
}

impl Section {
    /// The actions as the library wrote them, 24 words each.
    pub fn words(&self) -> &[u64] {
        &self.words
    }

    /// Whether the checker passes the section's list, given what else the file says.
    pub fn passes(&self, subtables: u64, pointer_size: u64) -> bool {
        let counts = Counts {
            actions: self.actions.len() as u64,
            temporaries: self.temporaries.len() as u64,
            subtables,
            pointer_size,
        };
        check(&self.words, counts)
    }
}

/// What a list is checked against.
#[derive(Debug, Clone, Copy, PartialEq, Eq)]
pub struct Counts {
    pub actions: u64,
    pub temporaries: u64,
    pub subtables: u64,
    /// The address size of the file's default space, or 8 if it has none.
    pub pointer_size: u64,
}

/// Resolves a section file. The list grows until the section fits, so 12 is never the answer.
pub fn resolve(file: &[u8]) -> Result<Section, Refusal> {
    let mut actions = FIRST_ACTIONS;
    loop {
        match resolve_within(file, actions, MAX_TEMPORARIES) {
            Err(refusal) if refusal.number == 12 && actions < MAX_ACTIONS => actions *= 4,
            answer => return answer,
        }
    }
}

/// Resolves a section file into a list with room for so many actions and temporaries, one action
/// being kept free for each subtable. Without enough room it is refused with 12 or 13.
pub fn resolve_within(file: &[u8], actions: usize, temporaries: usize) -> Result<Section, Refusal> {
    let mut words = vec![0; actions * ACTION_WORDS];
    let mut named = vec![0; temporaries];
    let mut result = [0; 12];
    // SAFETY: each pointer is valid for the length beside it, the result for twelve words, and
    // the lists are apart.
    unsafe {
        mizgalon_resolve(
            file.as_ptr(),
            file.len(),
            words.as_mut_ptr(),
            words.len(),
            named.as_mut_ptr(),
            named.len(),
            result.as_mut_ptr(),
        );
    }
    let [refusal, ordinal, statements, actions, temporaries, labels, points, errors, ..] = result;
    if refusal != 0 {
        let ordinal = (ordinal != NONE).then_some(ordinal as u16);
        return Err(Refusal { number: refusal as u8, ordinal, errors });
    }
    words.truncate(actions as usize * ACTION_WORDS);
    named.truncate(temporaries as usize);
    let rows = words.chunks_exact(ACTION_WORDS);
    Ok(Section {
        statements,
        actions: rows.map(Action::from_words).collect::<Option<_>>().expect("the library's list"),
        temporaries: named.into_iter().map(Temporary::from_word).collect(),
        labels,
        points,
        export: Export::from_words(&result[8..]),
        words,
    })
}

/// Whether a list passes, whoever made it.
pub fn check(list: &[u64], counts: Counts) -> bool {
    let Counts { actions, temporaries, subtables, pointer_size } = counts;
    // SAFETY: the pointer is valid for the length beside it.
    unsafe {
        mizgalon_check(list.as_ptr(), list.len(), actions, temporaries, subtables, pointer_size)
    }
}
