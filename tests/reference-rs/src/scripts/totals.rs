//! T and F with counts and sums that are right, one off, or more than their columns hold; the last
//! S of a file and one more; the greatest sums.

use super::moments::{after_t, e_open, LENT};
use super::{Scene, Script};
use crate::draft::{record_f, record_s, record_t, MOST_WAGES};
use crate::meaning::Room;
use crate::walk::State;

const FEIN: u64 = 77;

pub fn add(scenes: &mut Vec<Scene>) {
    totals_of_t(scenes);
    totals_of_f(scenes);
    scenes.push(Box::new(|_, script| last_s(script)));
    scenes.push(Box::new(|_, script| last_s_out_of_place(script)));
    scenes.push(Box::new(|_, script| last_line(script)));
}

fn with_end(line: Vec<u8>) -> Vec<u8> {
    [line, b"\n".to_vec()].concat()
}

/// Sets `e_open` with these changes.
fn set_e_open(script: &mut Script, change: impl Fn(&mut State)) {
    script.lent = LENT;
    let mut moment = e_open();
    change(&mut moment.state);
    script.set(&moment);
}

/// What the open E has, and what T tells: S records and cents each.
const OF_T: [(u64, u64, u64, u64); 12] = [
    (3, 375, 3, 375),
    (3, 375, 2, 375),
    (3, 375, 4, 375),
    (3, 375, 3, 374),
    (3, 375, 3, 376),
    (0, 0, 0, 0),
    (0, 0, 1, 0),
    (2, MOST_WAGES, 2, MOST_WAGES),
    (2, MOST_WAGES, 2, MOST_WAGES - 1),
    (2, MOST_WAGES + 1, 2, 0),
    (2, MOST_WAGES + 1, 2, MOST_WAGES),
    (100_000, 100_000 * MOST_WAGES, 100_000, 99_999_999_900_000),
];

fn totals_of_t(scenes: &mut Vec<Scene>) {
    for (s, cents, told_s, told_cents) in OF_T {
        for says_s_follow in [true, false] {
            scenes.push(Box::new(move |_, script| {
                set_e_open(script, |state| {
                    state.s = 100_000;
                    (state.open.s, state.open.cents) = (s, cents);
                    state.open.says_s_follow = says_s_follow;
                });
                script.line(&with_end(record_t(FEIN, told_s, told_cents)));
                script.end();
            }));
        }
    }
}

/// The most that the columns of F hold.
const MOST_OF_F: u64 = 999_999_999_999_999;

/// What the file has, and what F tells: S records, employers and cents each.
const OF_F: [([u64; 3], [u64; 3]); 11] = [
    ([5, 2, 675], [5, 2, 675]),
    ([5, 2, 675], [4, 2, 675]),
    ([5, 2, 675], [5, 3, 675]),
    ([5, 2, 675], [5, 2, 676]),
    ([5, 0, 675], [5, 0, 675]),
    ([0, 3, 0], [0, 3, 0]),
    ([100_000, 2, MOST_OF_F], [100_000, 2, MOST_OF_F]),
    ([100_000, 2, MOST_OF_F], [100_000, 2, MOST_OF_F - 1]),
    ([100_000, 2, MOST_OF_F + 1], [100_000, 2, 0]),
    ([100_000, 2, MOST_OF_F + 1], [100_000, 2, MOST_OF_F]),
    (
        [100_000, 2, 100_000 * MOST_WAGES],
        [100_000, 2, 999_999_999_900_000],
    ),
];

fn totals_of_f(scenes: &mut Vec<Scene>) {
    for ([s, employers, cents], told) in OF_F {
        scenes.push(Box::new(move |_, script| {
            script.lent = LENT;
            let mut moment = after_t();
            moment.state.s = s;
            moment.state.employers = employers;
            moment.state.cents = cents;
            script.set(&moment);
            script.line(&with_end(record_f(told[0], told[1], told[2])));
            script.end();
            script.end();
        }));
    }
}

fn s_line(script: &Script, id: u64, wages: u64) -> Vec<u8> {
    with_end(record_s(script.state().quarter_of_a, FEIN, id, wages))
}

/// The 100,000th S with all sums at their greatest; one more is 61, again and again.
fn last_s(script: &mut Script) {
    let before = 99_999 * MOST_WAGES;
    set_e_open(script, |state| {
        (state.s, state.cents) = (99_999, before);
        (state.open.s, state.open.cents) = (99_999, before);
    });
    script.line(&s_line(script, 0, MOST_WAGES));
    script.line(&s_line(script, 900_000_000, 0));
    script.end();
    script.line(b"");
}

/// One more under an E saying 0, and with no E open: place comes before 61. A full id table, and a
/// number that repeats, come after it.
fn last_s_out_of_place(script: &mut Script) {
    set_e_open(script, |state| {
        state.s = 100_000;
        state.open.says_s_follow = false;
    });
    script.line(&s_line(script, 5, 1));
    script.lent = LENT;
    let mut moment = after_t();
    moment.state.s = 100_000;
    script.set(&moment);
    script.line(&s_line(script, 5, 1));
    set_e_open(script, |state| state.s = 100_000);
    script.lent = Room {
        ids: 2,
        employers: 2,
    };
    script.line(&s_line(script, 333_333_333, 1));
}

/// The last line that may be read, refused and not; then the state is unfit.
fn last_line(script: &mut Script) {
    for told in [376, 375] {
        set_e_open(script, |state| state.lines_read = 231_074);
        script.line(&with_end(record_t(FEIN, 3, told)));
        script.line(b"");
        script.end();
    }
}
