//! The best that can be written by hand for the job of the proved program `acknowledge`, without proofs: header and wage
//! file on standard input, frames on standard output, in fixed memory.
//!
//! A line is looked at where the last one says it begins, in a few vector steps that only tell whether all is well. Where
//! they do not, the first broken edit is found by the plain code of the tests' reference, which need not be fast: it is
//! needed once for a file.

#![no_main]

#[allow(dead_code)]
#[path = "../../../../tests/reference-rs/src/calendar.rs"]
mod calendar;
#[allow(dead_code)]
#[path = "../../../../tests/reference-rs/src/edits.rs"]
mod edits;
#[allow(dead_code)]
#[path = "../../../../tests/reference-rs/src/layout.rs"]
mod layout;
#[allow(dead_code)]
#[path = "../../../../tests/reference-rs/src/lines.rs"]
mod lines;

#[cfg(target_arch = "aarch64")]
#[path = "neon.rs"]
mod lanes;
#[cfg(target_arch = "x86_64")]
#[path = "sse2.rs"]
mod lanes;

mod bounds;
mod employee;
mod employer;
mod feins;
mod frames;
mod ids;
mod input;
mod total;
mod walk;

use edits::Refusal;
use input::{write_all, Input};
use std::ffi::{c_char, c_int};
use std::ptr::addr_of_mut;
use walk::Walk;

/// All memory of the program. It begins as zeros and needs no start-up. It is laid so that it can be one large page.
#[repr(align(0x20_0000))]
struct Memory {
    input: Input,
    walk: Walk,
}

static mut MEMORY: Memory = Memory {
    input: Input::new(),
    walk: Walk::new(),
};

const STDOUT: c_int = 1;
const STDERR: c_int = 2;
const MADV_HUGEPAGE: c_int = 14;

extern "C" {
    fn madvise(from: *mut u8, length: usize, advice: c_int) -> c_int;
}

/// Walks through all input, in reads of so many bytes. None: it could not be read.
fn outcome(input: &mut Input, walk: &mut Walk, block: usize) -> Option<Result<(), Refusal>> {
    while input.held().len() < walk::HEADER {
        if !input.read(block)? {
            return Some(Err(walk::NO_QUARTER));
        }
    }
    if let Err(refusal) = walk.open(input.held()) {
        return Some(Err(refusal));
    }
    input.take(walk::HEADER);
    loop {
        match walk.lines(input.held()) {
            Ok(taken) => input.take(taken),
            Err(refusal) => return Some(Err(refusal)),
        }
        if !input.read(block)? {
            return Some(walk.last_lines(input.held()));
        }
    }
}

/// With any argument it asks for one large page, so that there is one fault, and then reads larger blocks.
#[no_mangle]
pub extern "C" fn main(words: c_int, _: *const *const c_char) -> c_int {
    // Nothing else has it: there is one thread, and it is here once.
    let memory = unsafe { &mut *addr_of_mut!(MEMORY) };
    let mut block = input::BLOCK;
    if words > 1 {
        unsafe {
            madvise(
                addr_of_mut!(MEMORY).cast(),
                size_of::<Memory>(),
                MADV_HUGEPAGE,
            )
        };
        block = input::MOST;
    }
    let Some(outcome) = outcome(&mut memory.input, &mut memory.walk, block) else {
        write_all(STDERR, b"by-hand: standard input could not be read\n");
        return 0;
    };
    if !write_all(STDOUT, &memory.walk.frames(outcome)) {
        write_all(STDERR, b"by-hand: the answer could not be written\n");
    }
    0
}
