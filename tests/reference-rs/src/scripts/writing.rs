//! Records written: in each phase and into slices of each length; sums and counts at their bounds;
//! numbers that a table would bound if it were lent; and the refusals in order.

use super::moments::{
    after_t, e_open, e_open_saying_0, e_open_without_s, in_each_phase, refused, Moment, HELD, LENT,
};
use super::records::record;
use super::{Scene, Script};
use crate::calendar::Quarter;
use crate::draft::MOST_WAGES;
use crate::edits::Phase;
use crate::layout::LENGTH;
use crate::meaning::Room;
use crate::rng::Rng;
use crate::walk::{OpenE, Standing, State};
use crate::write::{Written, TOO_MUCH_FOR_F, TOO_MUCH_FOR_T};

const LENGTHS: [usize; 6] = [0, 1, 289, 290, 291, 300];

pub fn add(scenes: &mut Vec<Scene>) {
    let others = [
        e_open_without_s(),
        e_open_saying_0(),
        refused(70),
        refused(73),
    ];
    for moment in in_each_phase().into_iter().chain(others) {
        scenes.push(Box::new(move |rng, script| {
            script.set(&moment);
            every_length(script);
            show(rng, script);
        }));
    }
    scenes.push(Box::new(|_, script| after_an_opening(script)));
    scenes.push(Box::new(|_, script| sums_of_t(script)));
    scenes.push(Box::new(|_, script| sums_of_f(script)));
    scenes.push(Box::new(|_, script| numbers_of_t(script)));
    scenes.push(Box::new(|_, script| numbers_of_f(script)));
    for moment in in_each_phase() {
        let state = moment.state;
        scenes.push(Box::new(move |_, script| no_table_lent(script, state)));
    }
    for moment in in_each_phase() {
        scenes.push(Box::new(move |rng, script| orders(rng, script, &moment)));
    }
}

fn both(script: &mut Script, length: usize) {
    for record in Written::BOTH {
        script.write(record, length);
    }
}

fn every_length(script: &mut Script) {
    for length in LENGTHS {
        both(script, length);
    }
}

/// A call that tells what state and tables are left: where there is an employer or a refusal it is
/// lent no entry and changes nothing, else it reads the next record.
fn show(rng: &mut Rng, script: &mut Script) {
    let state = script.state();
    let letter = match state.standing {
        Standing::Among(Phase::BeforeA) => b'A',
        Standing::Among(Phase::AfterA) => b'E',
        _ => {
            script.lent = Room {
                ids: 0,
                employers: 0,
            };
            return script.end();
        }
    };
    script.lent = LENT;
    let next = record(rng, letter, &state, script.tables());
    script.line(&[&next[..], b"\n"].concat());
}

/// The states that openings with a bad quarter and with no format leave.
fn after_an_opening(script: &mut Script) {
    script.lent = LENT;
    for (format, held) in [(0, Quarter::new(2026, 5)), (9, HELD)] {
        script.open_as(format, held);
        every_length(script);
        script.end();
    }
}

/// Sums where the columns of T end, where those of F end, and where the sign of 64 bits is.
const SUMS: [u64; 9] = [
    0,
    TOO_MUCH_FOR_T - 1,
    TOO_MUCH_FOR_T,
    TOO_MUCH_FOR_T + 1,
    TOO_MUCH_FOR_F - 1,
    TOO_MUCH_FOR_F,
    TOO_MUCH_FOR_F + 1,
    9_223_372_036_854_775_807,
    9_223_372_036_854_775_808,
];

/// One S record holds the greatest sum of T, two the least that is too much; and so ten and eleven
/// with F.
const S_COUNTS: [u64; 6] = [0, 1, 2, 10, 11, 100_000];

/// Each sum with the counts that are enough for it, and the greatest that is not; then the greatest
/// sum of the greatest count, and one cent more.
fn sums() -> Vec<(u64, u64)> {
    let mut list = Vec::new();
    for cents in SUMS {
        let enough = S_COUNTS.map(|s| s * MOST_WAGES >= cents);
        let first = enough.iter().position(|is_so| *is_so).unwrap_or(0);
        let counts = &S_COUNTS[first.saturating_sub(1)..];
        list.extend(counts.iter().map(|s| (*s, cents)));
    }
    list.extend([0, 1].map(|more| (100_000, 100_000 * MOST_WAGES + more)));
    list
}

/// The open E's, whatever the file's: an E that says 0 may have them too.
fn sums_of_t(script: &mut Script) {
    for (place, (s, cents)) in sums().into_iter().enumerate() {
        let mut state = e_open().state;
        (state.s, state.cents) = (100_000, if place % 3 == 0 { 0 } else { TOO_MUCH_FOR_F });
        (state.open.s, state.open.cents) = (s, cents);
        state.open.says_s_follow = place % 2 == 0;
        script.set_state(state);
        script.write(Written::T, LENGTH);
    }
}

/// The file's, whatever the last E's.
fn sums_of_f(script: &mut Script) {
    for (place, (s, cents)) in sums().into_iter().enumerate() {
        let mut state = after_t().state;
        (state.s, state.cents) = (s, cents);
        state.open.cents = if place % 2 == 0 { 0 } else { TOO_MUCH_FOR_F };
        script.set_state(state);
        script.write(Written::F, LENGTH);
    }
}

/// Counts, FEIN and lines at their bounds, each with S records and with none, under both flags.
fn numbers_of_t(script: &mut Script) {
    let mut altered = |alter: &dyn Fn(&mut State)| {
        let mut state = e_open().state;
        alter(&mut state);
        for says_s_follow in [true, false] {
            let some = OpenE {
                says_s_follow,
                ..state.open
            };
            let none = OpenE {
                s: 0,
                cents: 0,
                ..some
            };
            for open in [some, none] {
                script.set_state(State { open, ..state });
                script.write(Written::T, LENGTH);
            }
        }
    };
    for s in [3, 9, 10, 99_999, 100_000, 100_001] {
        altered(&|state| (state.s, state.open.s) = (s, s));
    }
    for fein in [0, 9, 123_456_789, 690_000_000, 999_999_999, 1_000_000_000] {
        altered(&|state| state.open.fein = fein);
    }
    for lines_read in [0, 231_073, 231_074, 231_075] {
        altered(&|state| state.lines_read = lines_read);
    }
}

/// S records, employers and lines at their bounds.
fn numbers_of_f(script: &mut Script) {
    let mut altered = |alter: &dyn Fn(&mut State)| {
        let mut state = after_t().state;
        alter(&mut state);
        script.set_state(state);
        script.write(Written::F, LENGTH);
    };
    for s in [0, 9, 10, 99_999, 100_000, 100_001] {
        altered(&|state| (state.s, state.cents) = (s, s));
    }
    for employers in [0, 9, 10, 65_535, 65_536, 65_537] {
        altered(&|state| state.employers = employers);
    }
    for lines_read in [0, 231_073, 231_074, 231_075] {
        altered(&|state| state.lines_read = lines_read);
    }
}

/// More ids than any table holds are fit, and so are employers up to 65,536.
fn no_table_lent(script: &mut Script, state: State) {
    for ids_in_use in [40, 41, 8_193, 9_999_999_999] {
        let open = OpenE {
            ids_in_use,
            ..state.open
        };
        script.set_state(State { open, ..state });
        both(script, LENGTH);
    }
    for employers in [12, 13, 65_535, 65_536, 65_537, 9_999_999_999] {
        script.set_state(State { employers, ..state });
        both(script, LENGTH);
    }
}

/// Every combination of what 72, 81 and 82 refuse, for 83 and 80 to be combined with: a line too
/// many; under an E saying 1 no S, a sum of 10^14, or both, which is unfit while that E is open; in
/// the file a sum of 10^15.
fn combinations(state: State) -> Vec<State> {
    let mut list = Vec::new();
    for lines_read in [231_074, 231_075] {
        for (s, cents) in [(2, 100), (0, 0), (2, TOO_MUCH_FOR_T), (0, TOO_MUCH_FOR_T)] {
            for cents_in_file in [675, TOO_MUCH_FOR_F] {
                list.push(State {
                    lines_read,
                    s: 11,
                    cents: cents_in_file,
                    open: OpenE {
                        says_s_follow: true,
                        s,
                        cents,
                        ..state.open
                    },
                    ..state
                });
            }
        }
    }
    list
}

/// "in order: 72; [...] 83; [...] 80; [...] 81; [...] 82"
fn orders(rng: &mut Rng, script: &mut Script, moment: &Moment) {
    for state in combinations(moment.state) {
        script.set_state(state);
        both(script, LENGTH);
        both(script, rng.pick(&[0, 1, 289, 291, 300]));
    }
}

#[cfg(test)]
mod tests {
    use super::*;

    /// What is answered to writing this record in each combination, by hand.
    fn assert_orders(state: State, record: Written, length: usize, wanted: [u8; 16]) {
        let found = combinations(state).into_iter().map(|state| {
            let answer = record.write(&state, &mut vec![0; length]);
            answer.map_or(0, |refusal| refusal.number)
        });
        assert_eq!(found.collect::<Vec<u8>>(), wanted);
    }

    fn then_unfit(fit: [u8; 8]) -> [u8; 16] {
        let mut all = [72; 16];
        all[..8].copy_from_slice(&fit);
        all
    }

    #[test]
    fn orders_by_hand() {
        let (open, after) = (e_open().state, after_t().state);
        let of_t = then_unfit([0, 0, 81, 81, 82, 82, 72, 72]);
        assert_orders(open, Written::T, 290, of_t);
        let of_t = then_unfit([83, 83, 83, 83, 83, 83, 72, 72]);
        assert_orders(open, Written::T, 289, of_t);
        let of_f = then_unfit([80, 80, 80, 80, 80, 80, 72, 72]);
        assert_orders(open, Written::F, 290, of_f);
        let of_f = then_unfit([0, 82, 0, 82, 0, 82, 0, 82]);
        assert_orders(after, Written::F, 290, of_f);
        assert_orders(after, Written::F, 291, then_unfit([83; 8]));
        assert_orders(after, Written::T, 290, then_unfit([80; 8]));
        assert_orders(after, Written::T, 0, then_unfit([83; 8]));
        for moment in in_each_phase() {
            let other = !matches!(
                moment.state.standing,
                Standing::Among(Phase::EOpen | Phase::AfterT)
            );
            for record in Written::BOTH.into_iter().filter(|_| other) {
                assert_orders(moment.state, record, 290, then_unfit([80; 8]));
            }
        }
    }

    /// Every sum comes with a count that is enough for it, and but for zero with one that is not.
    #[test]
    fn sums_within_the_bound_and_beyond() {
        for cents in SUMS {
            let of_cents = sums().into_iter().filter(|(_, other)| *other == cents);
            let (fit, not): (Vec<_>, Vec<_>) = of_cents.partition(|(s, _)| s * MOST_WAGES >= cents);
            assert!(!fit.is_empty());
            assert_eq!(not.len(), usize::from(cents > 0));
        }
        assert!(sums().contains(&(1, 99_999_999_999_999)));
        assert!(sums().contains(&(2, 100_000_000_000_000)));
        assert!(sums().contains(&(11, 999_999_999_999_999)));
        assert!(sums().contains(&(11, 1_000_000_000_000_000)));
    }
}
