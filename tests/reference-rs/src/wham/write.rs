//! The writing of T and F (7) into a lent slice of 275 bytes. No table is lent, and no state is
//! changed.

use super::edits::place;
use super::layout::LENGTH;
use crate::exports::unfit;
use crate::format::Format;
use crate::walk::{Answer, Standing, State};
use crate::write::{first_that_holds, Written};

/// "A table that isn't lent isn't compared; 65,536 binds anyway."
const NOT_LENT: usize = usize::MAX;

/// What no S record says: T 112-122, and the total of all employees, which is read in 2020 only.
#[derive(Clone, Copy, Debug, Default, PartialEq, Eq)]
pub struct Given {
    pub payments: u64,
    pub total: u64,
}

/// The least amounts that the columns of T 112-122, of T's sums and of F's sum do not hold.
pub const TOO_MUCH_FOR_PAYMENTS: u64 = 100_000_000_000;
pub const TOO_MUCH_FOR_T: u64 = 100_000_000_000_000;
pub const TOO_MUCH_FOR_F: u64 = 1_000_000_000_000_000;

/// "In order, slice untouched: 72; slice not 275 bytes 83; 80: [...]; 81: T, no S under an E saying
/// 1; 82: [...]"
pub fn write(record: Written, state: &State, given: Given, slice: &mut [u8]) -> Answer {
    let lacks_s = state.open.says_s_follow && state.open.s == 0;
    let answer = first_that_holds(&[
        (unfit(state, NOT_LENT, NOT_LENT), 72),
        (slice.len() != LENGTH, 83),
        (!may_stand(record, state), 80),
        (record == Written::T && lacks_s, 81),
        (is_too_much(record, state, given), 82),
    ]);
    if answer.is_none() {
        let text = match record {
            Written::T => total_record(state, given),
            Written::F => final_record(state),
        };
        slice.copy_from_slice(text.as_bytes());
    }
    answer
}

/// "a refused or ended walk, or the letter isn't `ok` in section 2", or a walk of another format.
fn may_stand(record: Written, state: &State) -> bool {
    match (state.format, state.standing) {
        (Format::Wham(edition), Standing::Among(phase)) => {
            place(edition, phase, state.open.says_s_follow, record.letter()).is_none()
        }
        _ => false,
    }
}

/// "T, payments of 10^11 or more, an amount for 175-188 or 213-226 of 10^14 or more; F, sum of 10^15
/// or more"
fn is_too_much(record: Written, state: &State, given: Given) -> bool {
    match record {
        Written::T => {
            given.payments >= TOO_MUCH_FOR_PAYMENTS
                || state.open.more.second >= TOO_MUCH_FOR_T
                || state.open.cents >= TOO_MUCH_FOR_T
        }
        Written::F => state.cents >= TOO_MUCH_FOR_F,
    }
}

/// By the lengths of the fields and not by their columns, so that this reading checks the one in
/// `layout`: 123-136 is "14 digits, or if negative hyphen and 13 digits".
fn total_record(state: &State, given: Given) -> String {
    let (s, original, correct) = (state.open.s, state.open.more.second, state.open.cents);
    let payments = given.payments;
    let due = match correct.checked_sub(payments) {
        Some(due) => format!("{due:014}"),
        None => format!("-{:013}", payments - correct),
    };
    let blank = "";
    format!(
        "T{s:07}WHAM{blank:99}{payments:011}{due}{blank:38}{original:014}{blank:24}{correct:014}{blank:49}"
    )
}

fn final_record(state: &State) -> String {
    let (s, e, cents) = (state.s, state.employers, state.cents);
    let blank = "";
    format!("F{s:010}{e:010}WHAM{blank:15}{cents:015}{blank:220}")
}
