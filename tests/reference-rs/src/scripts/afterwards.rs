//! Calls after a refusal, after 70, which `formats` has for 73 too, and after acceptance; and the
//! end in each phase.

use super::calls::again;
use super::moments::{base, content, in_each_phase, refused, rest_of, walked, HELD, LENT};
use super::records::{line_for, short_line};
use super::{Scene, Script};
use crate::calendar::Quarter;
use crate::command::NUMBERS;
use crate::edits::Refusal;
use crate::meaning::Room;
use crate::program::KEPT;
use crate::rng::Rng;
use crate::walk::{MoreOfE, OpenE, Standing};

const NONE: Room = Room {
    ids: 0,
    employers: 0,
};
/// Enough for `base` when no E is open.
const NO_IDS: Room = Room {
    ids: 0,
    employers: 2,
};
/// Too little for it.
const ONE_SHORT: Room = Room {
    ids: 0,
    employers: 1,
};

pub fn add(scenes: &mut Vec<Scene>) {
    for number in NUMBERS {
        for lent in [NONE, LENT, KEPT] {
            scenes.push(Box::new(move |rng, script| {
                refused_state(rng, script, number, lent);
            }));
        }
        scenes.push(Box::new(move |rng, script| {
            refused_state_with_other_numbers(rng, script, number);
        }));
    }
    for (year, month) in BAD_QUARTERS {
        scenes.push(Box::new(move |rng, script| {
            bad_quarter(rng, script, Quarter::new(year, month));
        }));
    }
    for lent in [LENT, KEPT, NO_IDS] {
        scenes.push(Box::new(move |rng, script| accepted(rng, script, lent)));
    }
    for moment in in_each_phase() {
        scenes.push(Box::new(move |rng, script| {
            script.lent = LENT;
            script.set(&moment);
            script.end();
            again(rng, script);
        }));
    }
}

fn refused_state(rng: &mut Rng, script: &mut Script, number: u8, lent: Room) {
    script.lent = lent;
    script.set(&refused(number));
    again(rng, script);
    let state = script.state();
    script.line(&line_for(rng, &state, &content()));
}

/// Numbers that no refusal leaves beside its own; each comes back as it was.
fn refused_state_with_other_numbers(rng: &mut Rng, script: &mut Script, number: u8) {
    script.lent = LENT;
    let mut moment = refused(number);
    let state = &mut moment.state;
    state.standing = Standing::Refused(Refusal::new(number, 4_294_967_295, 65_535));
    state.held = Quarter::new(99_999, 99);
    state.lines_read = rng.below(231_074);
    state.employers = rng.between(0, 3);
    state.s = rng.between(1, 100_000);
    state.cents = rng.below(state.s);
    state.open = OpenE {
        fein: 9_999_999_999,
        says_s_follow: true,
        s: rng.below(9_999_999_999),
        cents: rng.next() >> 2,
        ids_in_use: 50,
        more: MoreOfE {
            second: rng.next(),
            others: rng.next(),
            nearest: rng.next(),
            noted: rng.one_in(2),
            account: [rng.next(), rng.next()],
        },
    };
    state.more.notes = rng.next();
    script.set(&moment);
    again(rng, script);
}

const BAD_QUARTERS: [(u64, u64); 16] = [
    (0, 0),
    (0, 3),
    (2024, 12),
    (10_000, 3),
    (99_999, 12),
    (2026, 0),
    (2026, 1),
    (2026, 2),
    (2026, 4),
    (2026, 5),
    (2026, 7),
    (2026, 8),
    (2026, 10),
    (2026, 11),
    (2026, 13),
    (2026, 99),
];

/// 70 touches nothing, however often; then an opening that is fine.
fn bad_quarter(rng: &mut Rng, script: &mut Script, quarter: Quarter) {
    script.lent = rng.pick(&[LENT, KEPT, NONE]);
    script.set_tables(&content());
    script.open(quarter);
    again(rng, script);
    script.whole(quarter, short_line(rng));
    script.set_tables(&content());
    script.open(rng.pick(&[HELD, Quarter::new(2025, 3), Quarter::new(9999, 12)]));
    script.end();
}

/// A walk up to its acceptance; then 71, but for 72 where the list is too short for the state.
fn accepted(rng: &mut Rng, script: &mut Script, lent: Room) {
    let draft = base();
    script.lent = LENT;
    script.set(&walked(&draft, 10, LENT));
    script.line(&rest_of(&draft, 10));
    script.lent = lent;
    script.end();
    again(rng, script);
    let state = script.state();
    script.line(&line_for(rng, &state, &content()));
    script.lent = ONE_SHORT;
    script.end();
    script.line(short_line(rng));
}
