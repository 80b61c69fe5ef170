//! The paper's examples, and what it says of states and tables, as tests.

mod any_state;
mod building;
mod calls;
mod examples;
mod generated;
mod kinds;
mod wham;
mod writing;

use crate::calendar::Quarter;
use crate::edits::Refusal;
use crate::meaning::Outcome;

const Q1: Quarter = Quarter::new(2026, 3);

fn refused(number: u8, line: u64, column: u64) -> Outcome {
    Outcome::Refused(Refusal::new(number, line, column))
}
