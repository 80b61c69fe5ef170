//! Records written: in each phase and into slices of each length, by these exports and by those of
//! PFML; payments, sums and counts at their bounds; and the refusals in order.

use super::moments::{
    after_t, e_open, e_open_saying_0, e_open_without_s, in_each_phase, refused, Moment, LENT,
};
use super::{open, record_for, write};
use crate::calendar::Quarter;
use crate::command::Lent;
use crate::rng::Rng;
use crate::scripts::{Scene, Script};
use crate::walk::{OpenE, State};
use crate::wham::draft::MOST_OF_S;
use crate::wham::layout::LENGTH;
use crate::wham::write::{Given, TOO_MUCH_FOR_F, TOO_MUCH_FOR_PAYMENTS, TOO_MUCH_FOR_T};
use crate::write::Written;

const LENGTHS: [usize; 9] = [0, 1, 274, 275, 276, 289, 290, 291, 300];

pub fn add(scenes: &mut Vec<Scene>) {
    let others = [e_open_without_s(), refused(70), refused(91)];
    for moment in in_each_phase().into_iter().chain(others) {
        scenes.push(Box::new(move |_, script| every_length(script, &moment)));
    }
    scenes.push(Box::new(|_, script| after_a_bad_quarter(script)));
    for which in 0..3 {
        scenes.push(Box::new(move |_, script| payments(script, which)));
    }
    scenes.push(Box::new(|_, script| sums_of_t(script)));
    scenes.push(Box::new(|_, script| sums_of_f(script)));
    scenes.push(Box::new(|_, script| numbers_of_t(script)));
    scenes.push(Box::new(|_, script| numbers_of_f(script)));
    for moment in in_each_phase() {
        scenes.push(Box::new(move |rng, script| {
            orders(rng, script, &moment);
            lent_short(rng, script, &moment);
        }));
    }
}

fn both(script: &mut Script, length: usize, given: Given) {
    for record in Written::BOTH {
        script.write_wham(record, length, given);
    }
}

/// This format's exports want 275 bytes, those of PFML 290, and then cannot write here.
fn every_length(script: &mut Script, moment: &Moment) {
    script.set(moment);
    for length in LENGTHS {
        both(script, length, Given::default());
        for record in Written::BOTH {
            script.write(record, length);
        }
    }
}

/// The state that an opening with a bad quarter leaves.
fn after_a_bad_quarter(script: &mut Script) {
    script.lent = LENT;
    open(script, Quarter::new(2026, 5));
    for length in LENGTHS {
        both(script, length, Given::default());
        script.write(Written::T, length);
    }
    script.end();
}

/// Payments below, at and above the sum, and at the bound of their columns; the total of all
/// employees is not looked at.
fn payments(script: &mut Script, which: usize) {
    let moment = [e_open(), e_open_saying_0(), e_open_without_s()][which].clone();
    let sum = moment.state.open.cents;
    script.set(&moment);
    for payments in [
        0,
        1,
        sum.saturating_sub(1),
        sum,
        sum + 1,
        10_000,
        TOO_MUCH_FOR_PAYMENTS - 1,
        TOO_MUCH_FOR_PAYMENTS,
        TOO_MUCH_FOR_PAYMENTS + 1,
        1 << 63,
        u64::MAX,
    ] {
        for total in [0, TOO_MUCH_FOR_T, u64::MAX] {
            script.write_wham(Written::T, LENGTH, Given { payments, total });
        }
    }
}

/// Sums where the columns of T end and where those of F end.
const SUMS: [u64; 8] = [
    0,
    TOO_MUCH_FOR_T - 1,
    TOO_MUCH_FOR_T,
    TOO_MUCH_FOR_T + 1,
    TOO_MUCH_FOR_F - 1,
    TOO_MUCH_FOR_F,
    TOO_MUCH_FOR_F + 1,
    100_000 * MOST_OF_S,
];

/// Each of the two sums of the open E, whatever the file's, and the least count that is enough.
fn sums_of_t(script: &mut Script) {
    for (place, sum) in SUMS.into_iter().enumerate() {
        for (cents, second) in [(sum, 0), (0, sum), (sum, sum), (7, sum)] {
            let mut state = e_open().state;
            state.s = 100_000;
            state.open.s = sum.div_ceil(MOST_OF_S).max(1);
            (state.open.cents, state.open.more.second) = (cents, second);
            state.open.says_s_follow = place % 2 == 0;
            script.set_state(state);
            write(script, Written::T, [0, 7, 99_999_999_999][place % 3]);
        }
    }
}

/// The file's sum, after a T and with an E open that says 0; its other sum is not written.
fn sums_of_f(script: &mut Script) {
    for moment in [after_t(), e_open_saying_0()] {
        for sum in SUMS {
            for second in [0, sum] {
                let mut state = moment.state;
                state.s = sum.div_ceil(MOST_OF_S);
                (state.cents, state.more.second) = (sum, second);
                script.set_state(state);
                write(script, Written::F, 0);
            }
        }
    }
}

/// Counts, FEIN and lines at their bounds, each with S records and with none, under both flags.
fn numbers_of_t(script: &mut Script) {
    let mut altered = |alter: &dyn Fn(&mut State)| {
        let mut state = e_open().state;
        alter(&mut state);
        for says_s_follow in [true, false] {
            for s in [state.open.s, 0] {
                let mut altered = state;
                altered.open.says_s_follow = says_s_follow;
                if s == 0 {
                    let account = state.open.more.account;
                    altered.open = OpenE {
                        fein: state.open.fein,
                        says_s_follow,
                        ..OpenE::default()
                    };
                    altered.open.more.account = account;
                }
                script.set_state(altered);
                write(script, Written::T, 5);
            }
        }
    };
    for s in [3, 9, 10, 99_999, 100_000, 100_001] {
        altered(&|state| (state.s, state.open.s) = (s, s));
    }
    for fein in [0, 690_000_000, 999_999_999, 1_000_000_000] {
        altered(&|state| state.open.fein = fein);
    }
    for lines_read in [0, 331_073, 331_074, 331_075] {
        altered(&|state| state.lines_read = lines_read);
    }
}

/// S records, employers and lines at their bounds: no list is lent, and 65,536 binds.
fn numbers_of_f(script: &mut Script) {
    let mut altered = |alter: &dyn Fn(&mut State)| {
        for moment in [after_t(), e_open_saying_0()] {
            let mut state = moment.state;
            alter(&mut state);
            script.set_state(state);
            write(script, Written::F, 0);
        }
    };
    for s in [5, 9, 10, 99_999, 100_000, 100_001] {
        altered(&|state| state.s = s);
    }
    for employers in [0, 1, 9, 10, 12, 13, 65_535, 65_536, 65_537, u64::MAX] {
        altered(&|state| state.employers = employers);
    }
    for lines_read in [0, 331_073, 331_074, 331_075] {
        altered(&|state| state.lines_read = lines_read);
    }
}

/// Every combination of what 72, 81 and 82 refuse: a line too many; under an E saying 1 no S, a sum
/// of 10^14, or both, which is unfit while that E is open; in the file a sum of 10^15.
fn combinations(state: State) -> Vec<State> {
    let mut list = Vec::new();
    for lines_read in [331_074, 331_075] {
        for (s, cents) in [
            (200, 100),
            (0, 0),
            (200, TOO_MUCH_FOR_T),
            (0, TOO_MUCH_FOR_T),
        ] {
            for of_file in [675, TOO_MUCH_FOR_F] {
                let mut altered = state;
                altered.lines_read = lines_read;
                (altered.s, altered.cents) = (2_000, of_file);
                altered.open.s = s;
                (altered.open.cents, altered.open.more.second) = (cents, 0);
                list.push(altered);
            }
        }
    }
    list
}

/// "In order, slice untouched: 72; [...] 83; 80: [...]; 81: [...]; 82"
fn orders(rng: &mut Rng, script: &mut Script, moment: &Moment) {
    for state in combinations(moment.state) {
        script.set_state(state);
        let payments = rng.pick(&[0, TOO_MUCH_FOR_PAYMENTS]);
        let given = Given { payments, total: 0 };
        both(script, LENGTH, given);
        both(script, rng.pick(&[0, 274, 276, 290]), given);
    }
}

/// Fewer words of the state than there are, and of the answer.
fn lent_short(rng: &mut Rng, script: &mut Script, moment: &Moment) {
    script.set(moment);
    for words in [0, 17, 26, 27, 30] {
        let answer = rng.index(7);
        script.lend(Lent { words, answer });
        write(script, record_for(rng, &moment.state), 5);
    }
    script.lend(Lent::ENOUGH);
}
