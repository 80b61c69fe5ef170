//! The floor: reads standard input in the blocks that `by-hand` reads, counts the LFs in them and does nothing else.

#![no_main]

#[path = "by-hand/input.rs"]
mod input;

use input::{write_all, Input, BLOCK};
use std::ptr::addr_of_mut;

static mut INPUT: Input = Input::new();

/// So many bytes are counted in counters of one byte each, which do not overflow: the processor has at least 16 of them.
const FEW: usize = 16 * 240;

fn count_few(bytes: &[u8]) -> u64 {
    let mut counters = [0u8; 64];
    let (rows, rest) = bytes.as_chunks::<64>();
    for row in rows {
        for (counter, byte) in counters.iter_mut().zip(row) {
            *counter += u8::from(*byte == b'\n');
        }
    }
    let in_rows: u64 = counters.iter().map(|counter| u64::from(*counter)).sum();
    in_rows + rest.iter().filter(|byte| **byte == b'\n').count() as u64
}

#[no_mangle]
pub extern "C" fn main() -> i32 {
    // Nothing else has it: there is one thread, and it is here once.
    let input = unsafe { &mut *addr_of_mut!(INPUT) };
    let mut lines = 0;
    while input.read(BLOCK) == Some(true) {
        lines += input.held().chunks(FEW).map(count_few).sum::<u64>();
        input.take(input.held().len());
    }
    write_all(1, format!("{lines}\n").as_bytes());
    0
}
