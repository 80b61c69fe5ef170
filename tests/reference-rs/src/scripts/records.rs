//! Lines for a state: mostly such as it takes next.

use crate::calendar::{ends_quarter, Quarter};
use crate::draft::*;
use crate::edits::Phase;
use crate::lines::first_line;
use crate::rng::Rng;
use crate::tables::Tables;
use crate::walk::{Standing, State};

/// Lines that are too short for a record.
const SHORT: [&[u8]; 8] = [
    b"",
    b"A",
    b"\n",
    b"\r\n",
    b"A\n",
    b"S\r",
    b"\r\r\n",
    b"\0\xFF\n",
];

pub fn short_line(rng: &mut Rng) -> &'static [u8] {
    rng.pick(&SHORT)
}

/// A line that this state mostly takes next, with its end, and at times a byte after it.
pub fn line_for(rng: &mut Rng, state: &State, tables: &Tables) -> Vec<u8> {
    let letters: &[u8] = match state.standing {
        _ if rng.one_in(12) => b"AESTF",
        Standing::Among(Phase::BeforeA) => b"A",
        Standing::Among(Phase::AfterA) => b"E",
        Standing::Among(Phase::EOpen) if state.open.says_s_follow => b"SST",
        Standing::Among(Phase::EOpen) => b"T",
        Standing::Among(Phase::AfterT) => b"EF",
        _ => b"AESTF",
    };
    let letter = rng.pick(letters);
    let mut line = record(rng, letter, state, tables);
    if rng.one_in(15) {
        let place = rng.index(line.len());
        line[place] = rng.below(256) as u8;
    }
    if rng.one_in(6) {
        line.make_ascii_lowercase();
    }
    let end: &[u8] = rng.pick(&[
        b"\n", b"\n", b"\r", b"\r", b"\r\n", b"\r\n", b"\n\r", b"\rS",
    ]);
    [&line, end].concat()
}

/// A record of this letter that agrees with the state.
pub fn record(rng: &mut Rng, letter: u8, state: &State, tables: &Tables) -> Vec<u8> {
    let open = &state.open;
    let quarter = state.quarter_of_a;
    match letter {
        b'A' => {
            let first = Quarter::new(2025, 3);
            let current = state.held.current_after().unwrap_or(first);
            let quarter = rng.pick(&[state.held, state.held, first, quarter, current]);
            record_a(quarter, random_fein(rng), &AUGUSTA)
        }
        b'E' => {
            let (fein, s_follow) = (some_fein(rng, tables), !rng.one_in(4));
            let mut e = record_e(quarter, fein, s_follow, &AUGUSTA);
            // In the current quarter mostly a final return, else at times.
            if quarter.is_current(state.held) != rng.one_in(6) && ends_quarter(quarter.month) {
                put_final(&mut e, random_date(rng, quarter));
            }
            e
        }
        b'S' => {
            let (id, wages) = (some_id(rng, tables), some_wages(rng));
            record_s(quarter, open.fein, id, wages)
        }
        b'T' => record_t(open.fein, open.s, open.cents),
        _ => record_f(state.s, state.employers, state.cents),
    }
}

/// A new FEIN, or one that stands in the list, in use or not.
fn some_fein(rng: &mut Rng, tables: &Tables) -> u64 {
    let listed = match tables.list.is_empty() {
        true => 0,
        false => rng.pick(&tables.list).fein,
    };
    let new = random_fein(rng);
    rng.pick(&[new, new, new, listed])
}

/// A new identity number, zero, or one that stands in the table, in use or not.
fn some_id(rng: &mut Rng, tables: &Tables) -> u64 {
    let listed = match tables.ids.is_empty() {
        true => 0,
        false => rng.pick(&tables.ids).into(),
    };
    let new = random_id(rng);
    rng.pick(&[new, new, new, 0, listed])
}

fn some_wages(rng: &mut Rng) -> u64 {
    match rng.below(4) {
        0 => 0,
        1 => MOST_WAGES,
        _ => rng.below(1_000_000),
    }
}

/// What a call may be lent of a file from where the last one ended: exactly the line, at least 292
/// bytes, or all that remains.
pub fn piece<'a>(rng: &mut Rng, rest: &'a [u8]) -> &'a [u8] {
    let line = first_line(rest).taken();
    let length = match rng.below(10) {
        0 => 292,
        1 => 293,
        2 => rng.column(292, 600),
        3 => rest.len().min(1_200),
        _ => line,
    };
    &rest[..length.min(rest.len())]
}

/// Fewer bytes than the line has: its end is cut off, or more.
pub fn too_little<'a>(rng: &mut Rng, rest: &'a [u8]) -> &'a [u8] {
    let any = rng.index(292);
    let length = rng.pick(&[0, 1, 289, 290, 291, any]);
    &rest[..length.min(rest.len())]
}
