//! T and F with counts and sums that are right, one off, or more than their columns hold; the last
//! S and R of a file and one more; the last line; the account.

use super::lines::account_of;
use super::moments::{after_t, e_open, e_open_saying_0, LENT};
use super::read;
use crate::scripts::{Scene, Script};
use crate::walk::State;
use crate::wham::draft::*;

pub fn add(scenes: &mut Vec<Scene>) {
    totals_of_t(scenes);
    totals_of_f(scenes);
    scenes.push(Box::new(|_, script| last_s(script)));
    scenes.push(Box::new(|_, script| last_r(script)));
    scenes.push(Box::new(|_, script| last_out_of_place(script)));
    scenes.push(Box::new(|_, script| last_line(script)));
    scenes.push(Box::new(|_, script| accounts(script)));
    scenes.push(Box::new(|_, script| months(script)));
}

/// Sets `e_open` with these changes.
fn set_e_open(script: &mut Script, change: impl Fn(&mut State)) {
    script.lent = LENT;
    let mut moment = e_open();
    change(&mut moment.state);
    script.set(&moment);
}

/// What the open E has, and what T tells: S records, original and correct cents each.
const OF_T: [([u64; 3], [u64; 3]); 16] = [
    ([3, 350, 358], [3, 350, 358]),
    ([3, 350, 358], [2, 350, 358]),
    ([3, 350, 358], [4, 350, 358]),
    ([3, 350, 358], [3, 349, 358]),
    ([3, 350, 358], [3, 351, 358]),
    ([3, 350, 358], [3, 350, 357]),
    ([3, 350, 358], [3, 350, 359]),
    ([3, 350, 358], [3, 358, 350]),
    ([0, 0, 0], [0, 0, 0]),
    ([0, 0, 0], [1, 0, 0]),
    (
        [100_000, MOST_OF_T, MOST_OF_T],
        [100_000, MOST_OF_T, MOST_OF_T],
    ),
    ([100_000, MOST_OF_T + 1, MOST_OF_T], [100_000, 0, MOST_OF_T]),
    ([100_000, MOST_OF_T, MOST_OF_T + 1], [100_000, MOST_OF_T, 0]),
    ([100_000, MOST_OF_T, MOST_OF_T + 5], [100_000, MOST_OF_T, 4]),
    (
        [100_000, 100_000 * MOST_OF_S, 7],
        [100_000, 99_999_999_900_000, 7],
    ),
    (
        [100_000, 7, 100_000 * MOST_OF_S],
        [100_000, 7, 99_999_999_900_000],
    ),
];

fn totals_of_t(scenes: &mut Vec<Scene>) {
    for ([s, original, correct], told) in OF_T {
        for says_s_follow in [true, false] {
            for payments in [0, 400] {
                scenes.push(Box::new(move |_, script| {
                    set_e_open(script, |state| {
                        state.s = 100_000;
                        (state.open.s, state.open.cents) = (s, correct);
                        state.open.more.second = original;
                        state.open.says_s_follow = says_s_follow;
                    });
                    read(script, &record_t(told[0], payments, (told[1], told[2])));
                    script.end();
                }));
            }
        }
    }
}

/// The most that the columns of F hold.
const MOST_OF_F: u64 = 999_999_999_999_999;

/// What the file has, and what F tells: S records, employers and cents each.
const OF_F: [([u64; 3], [u64; 3]); 11] = [
    ([5, 4, 658], [5, 4, 658]),
    ([5, 4, 658], [4, 4, 658]),
    ([5, 4, 658], [5, 3, 658]),
    ([5, 4, 658], [5, 4, 657]),
    ([5, 0, 658], [5, 0, 658]),
    ([0, 3, 0], [0, 3, 0]),
    ([100_000, 2, MOST_OF_F], [100_000, 2, MOST_OF_F]),
    ([100_000, 2, MOST_OF_F], [100_000, 2, MOST_OF_F - 1]),
    ([100_000, 2, MOST_OF_F + 1], [100_000, 2, 0]),
    ([100_000, 2, MOST_OF_F + 1], [100_000, 2, MOST_OF_F]),
    (
        [100_000, 2, 100_000 * MOST_OF_S],
        [100_000, 2, 999_999_999_900_000],
    ),
];

/// After a T, and with an E open that says 0, which needs an employer.
fn totals_of_f(scenes: &mut Vec<Scene>) {
    for ([s, employers, cents], told) in OF_F {
        for mut moment in [after_t(), e_open_saying_0()] {
            moment.state.s = s;
            moment.state.employers = employers;
            (moment.state.cents, moment.state.more.second) = (cents, 0);
            scenes.push(Box::new(move |_, script| {
                script.lent = LENT;
                script.set(&moment);
                read(script, &record_f(told[0], told[1], told[2]));
                script.end();
                script.end();
            }));
        }
    }
}

fn s_line(script: &Script, id: u64, amounts: (u64, u64)) -> Vec<u8> {
    let state = script.state();
    record_s(state.quarter_of_a, id, amounts, &account_of(&state))
}

/// The 100,000th S with all sums at their greatest; one more is 61, again and again.
fn last_s(script: &mut Script) {
    let before = 99_999 * MOST_OF_S;
    set_e_open(script, |state| {
        (state.s, state.cents, state.more.second) = (99_999, before, before);
        (state.open.s, state.open.cents, state.open.more.second) = (99_999, before, before);
    });
    let line = s_line(script, 0, (MOST_OF_S, MOST_OF_S));
    read(script, &line);
    assert_eq!(script.answered, 0, "it is the last that passes");
    read(script, &line);
    assert_eq!(script.answered, 61);
    script.end();
    script.line(b"");
}

/// The same of R, whatever the S records are; one more S passes then.
fn last_r(script: &mut Script) {
    for (others, number) in [(99_999, 0), (100_000, 61), (100_001, 61), (u64::MAX, 61)] {
        set_e_open(script, |state| state.more.others = others);
        let quarter = script.state().quarter_of_a;
        read(script, &record_r(quarter, 5));
        assert_eq!(script.answered, number);
        script.end();
    }
    set_e_open(script, |state| state.more.others = 100_000);
    let line = s_line(script, 5, (1, 2));
    read(script, &line);
    set_e_open(script, |state| (state.s, state.more.others) = (100_000, 7));
    let quarter = script.state().quarter_of_a;
    read(script, &record_r(quarter, 5));
}

/// Place comes before 61, and fields after it.
fn last_out_of_place(script: &mut Script) {
    set_e_open(script, |state| {
        state.s = 100_000;
        state.open.says_s_follow = false;
    });
    let line = s_line(script, 5, (1, 1));
    read(script, &line);
    script.lent = LENT;
    let mut moment = after_t();
    (moment.state.s, moment.state.more.others) = (100_000, 100_000);
    for letter in *b"SR" {
        script.set(&moment);
        read(script, &[&[letter][..], &[b'~'; 274][..]].concat());
    }
    for letter in *b"SR" {
        set_e_open(script, |state| {
            (state.s, state.more.others) = (100_000, 100_000)
        });
        read(script, &[&[letter][..], &[b'~'; 274][..]].concat());
        assert_eq!(script.answered, 61);
    }
}

/// The last line that is fit to be read leaves a state that is not; a refusal does not count.
fn last_line(script: &mut Script) {
    for lines in [331_073, 331_074] {
        set_e_open(script, |state| state.lines_read = lines);
        let quarter = script.state().quarter_of_a;
        for _ in 0..3 {
            read(script, &record_r(quarter, 5));
        }
        script.end();
        set_e_open(script, |state| state.lines_read = lines);
        script.line(b"R\n");
        script.end();
    }
}

/// The account in the state's words, altered in one of its characters or beyond them.
fn accounts(script: &mut Script) {
    let [head, tail] = e_open().state.open.more.account;
    for account in [
        [head, tail],
        [head + 1, tail],
        [head, tail + 1],
        [head + (1 << 40), tail],
        [head + (1 << 48), tail],
        [head, tail + (1 << 40)],
        [head, tail + (1 << 63)],
        [tail, head],
        [head | 0x2020_2020_2020, tail],
        [0, 0],
        [u64::MAX, u64::MAX],
    ] {
        set_e_open(script, |state| state.open.more.account = account);
        read(
            script,
            &record_s(e_open().state.quarter_of_a, 5, (1, 2), ACCOUNT),
        );
    }
    // Letters are told in capitals.
    script.set(&after_t());
    let quarter = after_t().state.quarter_of_a;
    read(script, &record_e(quarter, 5, true, b"abcdefghijk"));
    for account in [
        b"ABCDEFGHIJK",
        b"abcdefghijk",
        b"AbCdEfGhIjK",
        b"ABCDEFGHIJL",
    ] {
        read(script, &record_s(quarter, 5, (1, 2), account));
    }
}

/// The month of the state's words, before the first E and after it.
fn months(script: &mut Script) {
    for month in [3, 6, 9, 12] {
        for phase in [0, 1, 4] {
            let mut moment = super::moments::in_each_phase()[phase].clone();
            moment.state.quarter_of_a.month = month;
            script.lent = LENT;
            script.set(&moment);
            let quarter = crate::calendar::Quarter::new(2026, 3);
            match phase {
                0 => read(script, &record_a(2026, 1, &AUGUSTA)),
                _ => read(script, &record_e(quarter, 1, false, ACCOUNT)),
            }
            read(script, &record_e(quarter, 1, false, ACCOUNT));
            read(script, &record_r(quarter, 1));
        }
    }
}
