//! The writing of T and F into a lent slice: "Otherwise the record that the walk accepts next, in
//! capitals".
//!
//! A writing call is lent no table and changes no state.

use crate::edits::{Phase, Refusal};
use crate::exports::unfit;
use crate::format::Format;
use crate::layout::LENGTH;
use crate::walk::{Answer, OpenE, Standing, State};

/// "A table the call isn't lent isn't compared": no count exceeds this length. That more than
/// 65,536 employers are unfit goes by no table.
const NOT_LENT: usize = usize::MAX;

/// The records that are written.
#[derive(Clone, Copy, Debug, PartialEq, Eq)]
pub enum Written {
    T,
    F,
}

impl Written {
    pub const BOTH: [Written; 2] = [Written::T, Written::F];

    pub fn letter(self) -> u8 {
        match self {
            Written::T => b'T',
            Written::F => b'F',
        }
    }

    /// The writing call of this record.
    pub fn write(self, state: &State, slice: &mut [u8]) -> Answer {
        match self {
            Written::T => write_t(state, slice),
            Written::F => write_f(state, slice),
        }
    }
}

/// The least sums that T's 14 and F's 15 columns of wages do not hold.
pub const TOO_MUCH_FOR_T: u64 = 100_000_000_000_000;
pub const TOO_MUCH_FOR_F: u64 = 1_000_000_000_000_000;

/// "Writing T or F into a lent slice, in order: 72; slice not 290 bytes 83; T with no E open, [...]
/// or a refused or ended walk 80; T with no S under an E saying 1 81; T sum of 10^14 or more, [...]
/// 82. Given only then, slice untouched."
pub fn write_t(state: &State, slice: &mut [u8]) -> Answer {
    let open = &state.open;
    let answer = first_that_holds(&[
        (unfit(state, NOT_LENT, NOT_LENT), 72),
        (slice.len() != LENGTH, 83),
        (!stands(state, Phase::EOpen), 80),
        (open.says_s_follow && open.s == 0, 81),
        (open.cents >= TOO_MUCH_FOR_T, 82),
    ]);
    if answer.is_none() {
        slice.copy_from_slice(total_record(open).as_bytes());
    }
    answer
}

/// The same with "F not right after a T, or a refused or ended walk 80" and "F sum of 10^15 or more
/// 82".
pub fn write_f(state: &State, slice: &mut [u8]) -> Answer {
    let answer = first_that_holds(&[
        (unfit(state, NOT_LENT, NOT_LENT), 72),
        (slice.len() != LENGTH, 83),
        (!stands(state, Phase::AfterT), 80),
        (state.cents >= TOO_MUCH_FOR_F, 82),
    ]);
    if answer.is_none() {
        slice.copy_from_slice(final_record(state).as_bytes());
    }
    answer
}

/// T and F here are those of PFML: in a walk of another format neither can stand.
fn stands(state: &State, phase: Phase) -> bool {
    state.format == Format::Pfml && state.standing == Standing::Among(phase)
}

/// The number of the first rule that holds: "71, 72 and 80 to 83 give line 0, column 0."
pub fn first_that_holds(rules: &[(bool, u8)]) -> Answer {
    let (_, number) = rules.iter().find(|(holds, _)| *holds)?;
    Some(Refusal::new(*number, 0, 0))
}

/// "Total (T) Record", by the lengths of its fields and not by their columns, so that this reading
/// checks the one in `layout`.
fn total_record(open: &OpenE) -> String {
    let (count, fein, cents) = (open.s, open.fein, open.cents);
    let blank = "";
    format!("T{count:07}PFML{fein:09}{blank:5}{cents:014}{blank:250}")
}

/// "Final (F) Record", by lengths too.
fn final_record(state: &State) -> String {
    let (s, e, cents) = (state.s, state.employers, state.cents);
    let blank = "";
    format!("F{s:010}{e:010}PFML{blank:15}{cents:015}{blank:235}")
}
