//! States that are fit but for one or two of their numbers.

use crate::calendar::Quarter;
use crate::command::{NUMBERS, PHASES};
use crate::draft::MOST_WAGES;
use crate::edits::Refusal;
use crate::format::Format;
use crate::rng::Rng;
use crate::walk::{OpenE, Standing, State};
use crate::write::{TOO_MUCH_FOR_F, TOO_MUCH_FOR_T};

/// The most that the columns of a command hold.
const MOST_OF_COUNT: u64 = 9_999_999_999;
const MOST_OF_CENTS: u64 = 9_999_999_999_999_999_999;
const MOST_OF_LINES: u64 = 4_294_967_295;

/// Alters one or two numbers.
pub fn alter(rng: &mut Rng, state: &mut State) {
    for _ in 0..rng.between(1, 2) {
        match rng.below(12) {
            0..=3 => alter_standing_or_quarter(rng, state),
            4..=7 => alter_file(rng, state),
            8..=10 => alter_open_e(rng, state),
            _ => alter_unused(rng, state),
        }
    }
}

/// The format, and what PFML does not use.
fn alter_unused(rng: &mut Rng, state: &mut State) {
    let any = rng.next() >> rng.below(64);
    let (of_e, of_file) = (&mut state.open.more, &mut state.more);
    match rng.below(10) {
        0 => state.format = Format::Unknown,
        1 => of_e.second = any,
        2 => of_e.others = any,
        3 => of_e.nearest = any,
        4 => of_e.noted = !of_e.noted,
        5 => of_e.account[0] = any,
        6 => of_e.account[1] = any,
        7 => of_file.second = any,
        8 => of_file.others = any,
        _ => of_file.notes = any,
    }
}

fn alter_standing_or_quarter(rng: &mut Rng, state: &mut State) {
    match rng.below(4) {
        0 => state.standing = any_standing(rng),
        1 => state.held = near_quarter(rng, state.held),
        2 => state.quarter_of_a = near_quarter(rng, state.quarter_of_a),
        _ => state.quarter_of_a = near_quarter(rng, state.held),
    }
}

fn alter_file(rng: &mut Rng, state: &mut State) {
    match rng.below(6) {
        0 => state.lines_read = near(rng, state.lines_read, 231_074, MOST_OF_LINES),
        1 => state.employers = near(rng, state.employers, 2, MOST_OF_COUNT),
        2 => state.s = near(rng, state.s, 100_000, MOST_OF_COUNT),
        3 => state.s = near(rng, state.s, state.open.s, MOST_OF_COUNT),
        // What F holds, with S records enough for it.
        4 => {
            state.s = state.s.max(11);
            state.cents = near(rng, state.cents, TOO_MUCH_FOR_F, MOST_OF_CENTS);
        }
        _ => {
            let most = state.s.min(100_000) * MOST_WAGES;
            state.cents = near(rng, state.cents, most, MOST_OF_CENTS);
        }
    }
}

fn alter_open_e(rng: &mut Rng, state: &mut State) {
    let open = &mut state.open;
    match rng.below(8) {
        0 => open.fein = near(rng, open.fein, 999_999_999, MOST_OF_COUNT),
        1 => open.says_s_follow = !open.says_s_follow,
        2 => open.s = near(rng, open.s, state.s, MOST_OF_COUNT),
        3 => {
            let most = open.s.min(100_000) * MOST_WAGES;
            open.cents = near(rng, open.cents, most, MOST_OF_CENTS);
        }
        4 => open.ids_in_use = near(rng, open.ids_in_use, 3, MOST_OF_COUNT),
        5 => (open.s, open.cents) = (0, 0),
        // What T holds, with S records enough for it.
        6 => {
            open.s = open.s.max(2);
            state.s = state.s.max(open.s);
            open.cents = near(rng, open.cents, TOO_MUCH_FOR_T, MOST_OF_CENTS);
        }
        _ => *open = OpenE::default(),
    }
}

/// A number next to another or at a bound, on both sides; at times anything.
fn near(rng: &mut Rng, own: u64, bound: u64, most: u64) -> u64 {
    let value = match rng.below(7) {
        0 => own.saturating_add(1),
        1 => own.saturating_sub(1),
        2 => bound.saturating_sub(1),
        3 => bound,
        4 => bound + 1,
        5 => rng.below(4),
        _ => rng.next() >> rng.below(64),
    };
    value.min(most)
}

fn any_standing(rng: &mut Rng) -> Standing {
    match rng.below(8) {
        0 => Standing::Accepted,
        1 => {
            let number = rng.pick(&NUMBERS);
            Standing::Refused(Refusal::new(number, rng.below(9), rng.below(300)))
        }
        _ => Standing::Among(rng.pick(&PHASES)),
    }
}

/// The quarter before or after, the first, the last, or what is none.
fn near_quarter(rng: &mut Rng, own: Quarter) -> Quarter {
    match rng.below(7) {
        0 => Quarter::new(own.year, (own.month + 3).min(99)),
        1 => Quarter::new(own.year, own.month.saturating_sub(3)),
        2 => Quarter::new((own.year + 1).min(99_999), 3),
        3 => Quarter::new(own.year.saturating_sub(1), 12),
        4 => rng.pick(&[Quarter::new(2025, 3), Quarter::new(9999, 12)]),
        5 => rng.pick(&[Quarter::new(2024, 12), Quarter::new(10_000, 3)]),
        _ => Quarter::new(own.year, rng.below(14)),
    }
}

#[cfg(test)]
mod tests {
    use super::*;
    use crate::command::{plain, Command};
    use crate::scripts::moments::in_each_phase;
    use crate::walk::unfit;

    /// Every state can be told by a command, and both kinds come often.
    #[test]
    fn states_near_fit_ones() {
        let moments = in_each_phase();
        let mut times_unfit = 0;
        for k in 0..10_000 {
            let mut rng = Rng::of(21, 0, k);
            let mut state = moments[rng.index(moments.len())].state;
            alter(&mut rng, &mut state);
            let command = Command::State(plain(&state));
            assert_eq!(Command::read(&command.text()), Some(command));
            times_unfit += u64::from(unfit(&state, 4, 3));
        }
        assert!((2_000..8_000).contains(&times_unfit), "{times_unfit}");
    }
}
