//! The judge behind the library's C names, to try the comparison before there is a library.
//! With MIZGALON_FAULT set to an operation's number, that operation's lists are made wrong; with
//! `guard`, a word beside the actions is written.

use crate::{oracle, words::ACTION};

#[unsafe(no_mangle)]
unsafe extern "C" fn mizgalon_resolve(
    file: *const u8,
    file_length: usize,
    actions: *mut u64,
    actions_length: usize,
    temporaries: *mut u64,
    temporaries_length: usize,
    result: *mut u64,
) {
    // SAFETY: the caller lends what it says.
    let (file, actions, temporaries, result) = unsafe {
        (
            std::slice::from_raw_parts(file, file_length),
            std::slice::from_raw_parts_mut(actions, actions_length),
            std::slice::from_raw_parts_mut(temporaries, temporaries_length),
            std::slice::from_raw_parts_mut(result, 12),
        )
    };
    let answer = oracle::judge(file, actions_length, temporaries_length).expect("a judgement");
    actions.copy_from_slice(&answer.actions);
    temporaries.copy_from_slice(&answer.temporaries);
    result.copy_from_slice(&answer.result);
    fault(actions);
}

fn fault(actions: &mut [u64]) {
    let Ok(fault) = std::env::var("MIZGALON_FAULT") else { return };
    if fault == "guard" {
        // SAFETY: the comparison has guard words there.
        unsafe { *actions.as_mut_ptr().add(actions.len()) = 0 };
    }
    for row in actions.chunks_exact_mut(ACTION) {
        if row[4] != 0 && fault == row[1].to_string() {
            row[4] += 1;
        }
    }
}

#[unsafe(no_mangle)]
unsafe extern "C" fn mizgalon_check(_: *const u64, _: usize, _: u64, _: u64, _: u64, _: u64) -> u8 {
    1
}
