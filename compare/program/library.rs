//! The library's C functions, called on lent lists that lie between guard words.

use crate::{second::Counts, words::Answer};

const GUARD: u64 = 0xA5A5_5A5A_C3C3_3C3C;
const GUARDS: usize = 8;

unsafe extern "C" {
    fn mizgalon_resolve(
        file: *const u8,
        file_length: usize,
        actions: *mut u64,
        actions_length: usize,
        temporaries: *mut u64,
        temporaries_length: usize,
        result: *mut u64,
    );

    fn mizgalon_check(
        list: *const u64,
        list_length: usize,
        actions: u64,
        temporaries: u64,
        subtables: u64,
        pointer_size: u64,
    ) -> u8;
}

/// Words to lend: garbage between guards.
struct Lent {
    words: Vec<u64>,
}

impl Lent {
    fn new(length: usize, seed: u64) -> Self {
        let mut words = vec![GUARD; length + 2 * GUARDS];
        let mut garbage = crate::rng::Rng::new(seed, length as u64);
        words[GUARDS..GUARDS + length].fill_with(|| garbage.next());
        Self { words }
    }

    fn start(&mut self) -> *mut u64 {
        self.words[GUARDS..].as_mut_ptr()
    }

    fn length(&self) -> usize {
        self.words.len() - 2 * GUARDS
    }

    fn guarded(&self) -> bool {
        let end = self.words.len() - GUARDS;
        self.words[..GUARDS].iter().chain(&self.words[end..]).all(|word| *word == GUARD)
    }

    fn inner(&self) -> Vec<u64> {
        self.words[GUARDS..GUARDS + self.length()].to_vec()
    }
}

/// The library's answer, or what it wrote outside of what it was lent.
pub fn resolve(file: &[u8], la: usize, lt: usize) -> Result<Answer, String> {
    let before = file.to_vec();
    let mut actions = Lent::new(la, 1);
    let mut temporaries = Lent::new(lt, 2);
    let mut result = Lent::new(12, 3);
    // SAFETY: the lists are as long as is said and do not overlap.
    unsafe {
        mizgalon_resolve(
            file.as_ptr(),
            file.len(),
            actions.start(),
            la,
            temporaries.start(),
            lt,
            result.start(),
        );
    }
    for (list, name) in [(&actions, "actions"), (&temporaries, "temporaries"), (&result, "result")]
    {
        if !list.guarded() {
            return Err(format!("a word beside the {name} was written"));
        }
    }
    if file != before {
        return Err("the file was written".into());
    }
    Ok(Answer {
        result: result.inner().try_into().unwrap(),
        actions: actions.inner(),
        temporaries: temporaries.inner(),
    })
}

/// The library's checker on an accepted list.
pub fn check(answer: &Answer, subtables: u64, pointer_size: u64) -> bool {
    let [_, _, _, actions, temporaries, ..] = answer.result;
    check_list(&answer.actions, Counts { actions, temporaries, subtables, pointer_size })
}

/// The library's checker on any list.
pub fn check_list(list: &[u64], counts: Counts) -> bool {
    let Counts { actions, temporaries, subtables, pointer_size } = counts;
    // SAFETY: the list is as long as is said.
    unsafe {
        let length = list.len();
        mizgalon_check(list.as_ptr(), length, actions, temporaries, subtables, pointer_size) != 0
    }
}

/// The nanoseconds of so many whole calls on one file.
pub fn time(file: &[u8], la: usize, lt: usize, count: usize) -> u128 {
    let mut actions = vec![0u64; la];
    let mut temporaries = vec![0u64; lt];
    let mut result = [0u64; 12];
    let start = std::time::Instant::now();
    for _ in 0..count {
        // SAFETY: as above.
        unsafe {
            mizgalon_resolve(
                file.as_ptr(),
                file.len(),
                actions.as_mut_ptr(),
                la,
                temporaries.as_mut_ptr(),
                lt,
                result.as_mut_ptr(),
            );
        }
        std::hint::black_box(&result);
    }
    start.elapsed().as_nanos()
}
