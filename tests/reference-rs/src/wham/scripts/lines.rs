//! Lines for a state: mostly such as it takes next.

use crate::calendar::Quarter;
use crate::edits::Phase;
use crate::lines::first_line;
use crate::rng::Rng;
use crate::walk::{Standing, State};
use crate::wham::draft::*;
use crate::wham::valid::{random_amount, random_fein, random_id};

/// Lines that are too short for a record.
const SHORT: [&[u8]; 8] = [
    b"",
    b"A",
    b"\n",
    b"\r\n",
    b"A\n",
    b"R\r",
    b"\r\r\n",
    b"\0\xFF\n",
];

pub fn short(rng: &mut Rng) -> &'static [u8] {
    rng.pick(&SHORT)
}

/// A line that this state mostly takes next, with its end, and at times a byte after it.
pub fn fitting(rng: &mut Rng, state: &State) -> Vec<u8> {
    let letters: &[u8] = match state.standing {
        _ if rng.one_in(12) => b"ABESRTF",
        Standing::Among(Phase::BeforeA) => b"A",
        Standing::Among(Phase::AfterA) => b"E",
        Standing::Among(Phase::EOpen) if state.open.says_s_follow => b"SSRT",
        Standing::Among(Phase::EOpen) => b"RTEF",
        Standing::Among(Phase::AfterT) => b"EF",
        _ => b"AESRTF",
    };
    let letter = rng.pick(letters);
    let mut line = record(rng, letter, state);
    if rng.one_in(15) {
        let place = rng.index(line.len());
        line[place] = rng.below(256) as u8;
    }
    if rng.one_in(6) {
        line.make_ascii_lowercase();
    }
    let end: &[u8] = rng.pick(&[
        b"\n", b"\n", b"\r", b"\r", b"\r\n", b"\r\n", b"\n\r", b"\rS",
    ]);
    [&line, end].concat()
}

/// A record of this letter that agrees with the state.
pub fn record(rng: &mut Rng, letter: u8, state: &State) -> Vec<u8> {
    let (open, filed) = (&state.open, state.quarter_of_a);
    // Of an altered state as many digits as the columns hold.
    let filed = Quarter::new(filed.year % 10_000, filed.month % 100);
    match letter {
        b'A' => {
            let year = rng.pick(&[state.held.year, state.held.year, 0, filed.year, 2024]);
            record_a(year, random_fein(rng), &AUGUSTA)
        }
        b'E' => {
            let (fein, says_1) = (random_fein(rng), !rng.one_in(3));
            let quarter = Quarter::new(filed.year, month_for(rng, state) % 100);
            record_e(
                quarter,
                fein,
                says_1,
                rng.pick(&[ACCOUNT, b"1234-5678  ", b"ab c-1     "]),
            )
        }
        b'S' => {
            let amounts = (random_amount(rng), random_amount(rng));
            record_s(filed, random_id(rng), amounts, &account_of(state))
        }
        b'R' => record_r(filed, rng.below(1_000_000_000)),
        b'T' => {
            let any = rng.below(100_000_000_000);
            let payments = rng.pick(&[0, any, open.cents.min(MOST_OF_PAYMENTS)]);
            record_t(open.s, payments, (open.more.second, open.cents))
        }
        b'B' => [&b"B2026000000077WHAM"[..], &[b'X'; 257]].concat(),
        _ => record_f(state.s, state.employers, state.cents),
    }
}

/// The month that the state has, and before the first E some month.
fn month_for(rng: &mut Rng, state: &State) -> u64 {
    match state.standing {
        Standing::Among(Phase::AfterA) => rng.pick(&[3, 3, 6, 9, 12]),
        _ => state.quarter_of_a.month,
    }
}

/// The open E's account as text, if its words tell one.
pub fn account_of(state: &State) -> Vec<u8> {
    let [head, tail] = state.open.more.account.map(u64::to_be_bytes);
    let text = [&head[2..], &tail[3..]].concat();
    let is_text = text.iter().all(|c| (0x20..=0x7E).contains(c)) && text[0] != b' ';
    if is_text {
        text
    } else {
        ACCOUNT.to_vec()
    }
}

/// What a call may be lent of a file from where the last one ended: exactly the line, at least 277
/// bytes, or all that remains.
pub fn piece<'a>(rng: &mut Rng, rest: &'a [u8]) -> &'a [u8] {
    let line = first_line(rest).taken();
    let length = match rng.below(10) {
        0 => 277,
        1 => 278,
        2 => rng.column(277, 600),
        3 => rest.len().min(1_200),
        _ => line,
    };
    &rest[..length.min(rest.len())]
}

/// Fewer bytes than the line has: its end is cut off, or more.
pub fn too_little<'a>(rng: &mut Rng, rest: &'a [u8]) -> &'a [u8] {
    let any = rng.index(277);
    let length = rng.pick(&[0, 1, 274, 275, 276, any]);
    &rest[..length.min(rest.len())]
}
