//! Line and end calls on any state and tables of any length: an answer each time, and nothing
//! changed but what the paper says.

use super::calls::e_open;
use super::Q1;
use crate::calendar::Quarter;
use crate::draft::*;
use crate::edits::{Phase, Refusal};
use crate::format::Format;
use crate::meaning::Entry;
use crate::rng::Rng;
use crate::walk::{self, MoreOfE, OpenE, Standing, State};

/// A number that may be in a state: near a bound, small, or anything.
fn any_number(rng: &mut Rng) -> u64 {
    let bounds = [
        0,
        65_535,
        65_536,
        99_999,
        100_000,
        231_073,
        231_074,
        999_999_999,
        MOST_WAGES,
        2 * MOST_WAGES,
        100_000 * MOST_WAGES,
        u64::MAX - 1,
    ];
    match rng.below(4) {
        0 => rng.pick(&bounds) + rng.below(2),
        1 => rng.next(),
        _ => rng.below(5),
    }
}

fn any_quarter(rng: &mut Rng) -> Quarter {
    match rng.below(6) {
        0 => Quarter::new(any_number(rng), any_number(rng)),
        1 => Quarter::new(2025, 3),
        2 => Quarter::new(2024, 12),
        3 => Quarter::new(9999, 12),
        _ => Q1,
    }
}

fn any_standing(rng: &mut Rng) -> Standing {
    let phases = [
        Phase::BeforeA,
        Phase::AfterA,
        Phase::EOpen,
        Phase::EOpen,
        Phase::AfterT,
        Phase::AfterF,
    ];
    match rng.below(10) {
        0 => Standing::Accepted,
        1 | 2 => {
            let number = rng.below(256) as u8;
            Standing::Refused(Refusal::new(number, any_number(rng), any_number(rng)))
        }
        _ => Standing::Among(rng.pick(&phases)),
    }
}

/// A state that is fit but for at most a few of its numbers.
pub fn any_state(rng: &mut Rng) -> State {
    let (mut state, _, _) = e_open();
    state.standing = any_standing(rng);
    state.open.says_s_follow = !rng.one_in(3);
    for _ in 0..rng.below(4) {
        let (number, quarter) = (any_number(rng), any_quarter(rng));
        match rng.below(15) {
            0 => state.held = quarter,
            1 => state.quarter_of_a = quarter,
            2 => state.lines_read = number,
            3 => state.employers = number,
            4 => state.s = number,
            5 => state.cents = number,
            6 => state.open.fein = number,
            7 => state.open.s = number,
            8 => state.open.cents = number,
            9 => state.open.ids_in_use = number,
            10 if rng.one_in(4) => state.format = Format::Unknown,
            11 => state.open.more.second = number,
            12 => state.open.more.noted = true,
            13 => state.more.notes = number,
            _ => (state.open.s, state.open.cents) = (0, 0),
        }
    }
    state
}

/// The letter of a line that this state mostly takes next.
fn letter_for(rng: &mut Rng, state: &State) -> u8 {
    let likely: &[u8] = match state.standing {
        _ if rng.one_in(5) => b"AESTF",
        Standing::Among(Phase::BeforeA) => b"A",
        Standing::Among(Phase::AfterA) => b"E",
        Standing::Among(Phase::EOpen) => b"ST",
        Standing::Among(Phase::AfterT) => b"EF",
        _ => b"AESTF",
    };
    rng.pick(likely)
}

fn line_for(rng: &mut Rng, state: &State) -> Vec<u8> {
    let (open, quarter) = (&state.open, state.quarter_of_a);
    let s_follow = rng.one_in(2);
    let (fein, id) = (
        rng.pick(&[8, 11, 77, 999]),
        rng.pick(&[0, 21, 22, 23, 24, 25]),
    );
    let mut line = match letter_for(rng, state) {
        b'A' => record_a(Q1, rng.below(90), &AUGUSTA),
        b'E' => record_e(quarter, fein, s_follow, &AUGUSTA),
        b'S' => record_s(quarter, open.fein, id, MOST_WAGES),
        b'T' => record_t(open.fein, open.s, open.cents),
        _ => record_f(state.s, state.employers, state.cents),
    };
    if rng.one_in(6) {
        let place = rng.index(line.len());
        line[place] = rng.below(256) as u8;
    }
    if rng.one_in(20) {
        line.pop();
    }
    let end: &[u8] = rng.pick(&[b"\n", b"\r", b"\r\n", b"\r\r\n", b"\nS", b""]);
    [&line, end].concat()
}

/// A state and tables, before a call or after it.
#[derive(Clone, PartialEq)]
struct Side {
    state: State,
    ids: Vec<u32>,
    list: Vec<Entry>,
}

impl Side {
    fn any(rng: &mut Rng) -> Side {
        let (_, mut ids, mut list) = e_open();
        ids.truncate(2 + rng.index(3));
        list.truncate(rng.pick(&[1, 2, 2, 3, 3, 3, 3, 3]));
        let state = any_state(rng);
        Side { state, ids, list }
    }

    fn is_zeroed(&self) -> bool {
        self.ids.iter().all(|id| *id == 0) && self.list.iter().all(|e| *e == Entry::default())
    }
}

/// What a line call may change when it is not refused, read off decision 17 once more.
fn assert_changes(letter: u8, before: &Side, after: &Side) {
    assert_ids(letter, before, after);
    assert_entries(letter, before, after);
    let (old, new) = (&before.state, &after.state);
    assert_eq!(new.lines_read, old.lines_read + 1);
    assert_eq!(new.held, old.held);
    assert_eq!(new.employers, old.employers + u64::from(letter == b'E'));
    assert_eq!(new.s, old.s + u64::from(letter == b'S'));
    assert_eq!((new.format, new.more), (old.format, old.more));
    let wanted = match letter {
        b'S' => old.open.more,
        _ => MoreOfE::default(),
    };
    assert_eq!(new.open.more, wanted);
    if b"ATF".contains(&letter) {
        assert_eq!(new.open, OpenE::default());
    }
}

fn assert_ids(letter: u8, before: &Side, after: &Side) {
    let used = before.state.open.ids_in_use as usize;
    let takes_room = after.state.open.ids_in_use > before.state.open.ids_in_use;
    for (place, (old, new)) in before.ids.iter().zip(&after.ids).enumerate() {
        match letter {
            b'T' if place < used => assert_eq!(*new, 0),
            b'S' if place == used && takes_room => assert_ne!(*new, 0),
            _ => assert_eq!(new, old),
        }
    }
}

fn assert_entries(letter: u8, before: &Side, after: &Side) {
    let employers = before.state.employers as usize;
    for (place, (old, new)) in before.list.iter().zip(&after.list).enumerate() {
        let wanted = match letter {
            // The flags and the date are the line's, and are looked at elsewhere.
            b'E' if place == employers => {
                assert!(new.amended <= 1 && new.final_return == u64::from(new.cease_date != 0));
                let plain = Entry::plain(after.state.open.fein, 0, 0);
                plain.of_kind(new.amended, new.final_return, new.cease_date)
            }
            b'T' if place + 1 == employers => Entry {
                count: before.state.open.s,
                cents: before.state.open.cents,
                ..*old
            },
            _ => *old,
        };
        assert_eq!(*new, wanted);
    }
}

/// What a refusal leaves.
fn assert_refused(refusal: Refusal, before: &Side, after: &Side) {
    if refusal.number >= 70 {
        assert!(before == after);
        return;
    }
    assert!(after.is_zeroed());
    assert_eq!(after.state.standing, Standing::Refused(refusal));
    if matches!(before.state.standing, Standing::Refused(_)) {
        assert_eq!(after.state, before.state);
    } else {
        let empty = State::opened(Quarter::default());
        let (standing, format) = (after.state.standing, before.state.format);
        let wanted = State {
            standing,
            format,
            ..empty
        };
        assert_eq!(after.state, wanted);
    }
}

/// What an accepting end call leaves.
fn assert_accepted(before: &Side, after: &Side) {
    let mut wanted = before.clone();
    wanted.state.standing = Standing::Accepted;
    assert!(wanted == *after);
}

#[test]
fn any_state_at_all() {
    let (mut lines_taken, mut unfit) = (0, 0);
    for k in 0..200_000 {
        let mut rng = Rng::of(11, 0, k);
        let before = Side::any(&mut rng);
        let bytes = line_for(&mut rng, &before.state);
        let mut after = before.clone();
        let Side { state, ids, list } = &mut after;
        let (refusal, taken) = match rng.one_in(5) {
            true => (walk::end(state, ids, list), 0),
            false => {
                let answer = walk::line(state, ids, list, &bytes);
                (answer.refusal, answer.taken)
            }
        };
        match refusal {
            Some(refusal) => {
                assert_eq!(taken, 0);
                assert_refused(refusal, &before, &after);
                unfit += u64::from(refusal.number == 72);
            }
            None if taken == 0 => assert_accepted(&before, &after),
            None => {
                assert_changes(bytes[0].to_ascii_uppercase(), &before, &after);
                lines_taken += 1;
            }
        }
    }
    assert!(
        lines_taken > 20_000 && unfit > 20_000,
        "{lines_taken} {unfit}"
    );
}
