//! Long files: a list exactly full and one employer more, 100,000 S and R records and one more of
//! each, and sums of many records.

use super::ack::EMPLOYERS;
use super::draft::*;
use super::valid::dress;
use crate::calendar::Quarter;
use crate::draft::put;
use crate::edits::Refusal;
use crate::gen::{Case, Meant};
use crate::rng::Rng;

const QUARTER: Quarter = Quarter::new(2026, 6);
const FEIN: u64 = 12_345_678;
const MOST: usize = 100_000;

fn case(draft: &Draft, meant: Meant) -> Case {
    let name = format!("{} lines", draft.lines.len());
    Case::new("big", name, draft.input(), meant)
}

fn refused(number: u8, place: usize, column: u64) -> Meant {
    Meant::Refused(Refusal::new(number, place as u64 + 1, column))
}

/// The place of the last line with this letter.
fn last(draft: &Draft, letter: u8) -> usize {
    let place = (0..draft.lines.len()).rev().find(|p| draft.is(*p, letter));
    place.expect("there is such a line")
}

/// So many employers, most of them without T; some with an S or an R.
fn employers(rng: &mut Rng, count: usize) -> Draft {
    let employ = |k: u64| {
        let fein = FEIN + k / 2;
        match rng.below(10) {
            0 => Employer::of(fein, &[(k, k, k + 1)]),
            1 => Employer::of(fein, &[]),
            2 => Employer {
                under: vec![Under::R(k)],
                ..Employer::without_t(fein)
            },
            _ => Employer::without_t(fein),
        }
    };
    let list: Vec<Employer> = (0..count as u64).map(employ).collect();
    tidy(QUARTER, QUARTER, &list)
}

/// One employer more than the list holds: 63, at the last E; its own rules come before, and breaks
/// in later columns do not count.
pub fn employers_overflow(rng: &mut Rng, which: u64) -> Case {
    let mut draft = employers(rng, EMPLOYERS + 1);
    let place = last(&draft, b'E');
    dress(rng, &mut draft);
    let e = &mut draft.lines[place].text;
    let told = match which % 7 {
        1 => {
            put(e, 10, b"X");
            (30, 10)
        }
        3 => {
            put(e, 2, b"0000");
            (42, 2)
        }
        5 => {
            put(e, 24, b" ");
            put(e, 188, b"12");
            (63, 6)
        }
        _ => (63, 6),
    };
    case(&draft, refused(told.0, place, told.1))
}

/// The list exactly full, and an E too many that gets another number.
pub fn full(rng: &mut Rng, which: u64) -> Case {
    match which % 3 {
        0 => {
            let mut draft = employers(rng, EMPLOYERS);
            dress(rng, &mut draft);
            case(&draft, Meant::Accepted)
        }
        // The last is closed by a T, and one more is none.
        1 => {
            let mut draft = employers(rng, EMPLOYERS);
            let f = last(&draft, b'F');
            draft.insert(f, record_e(QUARTER, FEIN, false, ACCOUNT));
            draft.total();
            case(&draft, refused(63, f, 6))
        }
        // One that says 1 is still open: place comes before the list.
        _ => {
            let mut list = vec![Employer::without_t(FEIN); EMPLOYERS - 1];
            list.push(Employer::of(FEIN, &[(1, 2, 3)]));
            let mut draft = tidy(QUARTER, QUARTER, &list);
            let t = last(&draft, b'T');
            draft.insert(t, record_e(QUARTER, FEIN, false, ACCOUNT));
            case(&draft, refused(15, t, 1))
        }
    }
}

/// A run of hundreds of S and R records under one E, with one of them changed: the first broken
/// edit is that of the lines one by one.
pub fn run(rng: &mut Rng) -> Case {
    let mut under = Vec::new();
    for _ in 0..rng.between(150, 500) {
        let (original, correct) = (rng.below(1_000_000), rng.below(1_000_000));
        under.push(match rng.one_in(8) {
            true => Under::R(correct),
            false => Under::S(rng.below(900_000_000), original, correct),
        });
    }
    under.push(Under::S(1, 2, 3));
    let employer = Employer {
        under,
        ..Employer::of(FEIN, &[])
    };
    let mut draft = tidy(QUARTER, QUARTER, &[employer]);
    dress(rng, &mut draft);
    let place = 2 + rng.index(draft.lines.len() - 4);
    let column = rng.column(1, 275);
    let byte = match rng.below(4) {
        0 => rng.below(256) as u8,
        _ => rng.between(0x20, 0x7E) as u8,
    };
    draft.lines[place].put(column, &[byte]);
    if rng.one_in(2) {
        draft.total();
    }
    Case::new("run", "", draft.input(), Meant::Unsaid)
}

/// The long files, by turns: half of them have one S or one R too many.
pub fn long(rng: &mut Rng, turn: u64) -> Case {
    let round = turn / 10;
    match turn % 10 {
        1 => hundred_thousand(rng, round),
        3 => full(rng, round),
        5 => one_more_told_otherwise(rng, round),
        7 => sums(round),
        9 => employers_overflow(rng, round),
        even => one_more(rng, round * 5 + even / 2),
    }
}

/// So many S and R records under employers of a few thousand each.
fn many(rng: &mut Rng, s: usize, r: usize) -> Draft {
    let mut letters = [vec![b'S'; s], vec![b'R'; r]].concat();
    rng.shuffle(&mut letters);
    let mut list: Vec<Employer> = Vec::new();
    let mut rest = &letters[..];
    while !rest.is_empty() {
        let (here, behind) = rest.split_at(rest.len().min(rng.column(4_000, 30_000)));
        let under = here.iter().map(|letter| match letter {
            b'S' => Under::S(
                rng.below(900_000_000),
                rng.below(1_000),
                rng.below(1_000_000),
            ),
            _ => Under::R(rng.below(1_000_000_000)),
        });
        let fein = FEIN + list.len() as u64;
        let under = under.collect();
        list.push(Employer {
            under,
            ..Employer::of(fein, &[])
        });
        rest = behind;
    }
    tidy(QUARTER, QUARTER, &list)
}

/// 100,000 of a letter are accepted, and so are as many of both.
fn hundred_thousand(rng: &mut Rng, which: u64) -> Case {
    let (s, r) = [(MOST, 0), (10, MOST), (MOST, MOST), (MOST, 100)][which as usize % 4];
    let mut draft = many(rng, s, r);
    draft.set_ends(rng);
    case(&draft, Meant::Accepted)
}

/// One S or one R more: 61, wherever it stands and whatever else is wrong with its fields.
fn one_more(rng: &mut Rng, which: u64) -> Case {
    let letter = if which % 2 == 0 { b'S' } else { b'R' };
    let (s, r) = match letter {
        b'S' => (MOST + 1, 3),
        _ => (3, MOST + 1),
    };
    let mut draft = many(rng, s, r);
    let place = draft.places(letter)[MOST];
    match which % 5 {
        // Fields of it that break edits do not count.
        0 => draft.lines[place].text[1..].fill(b'~'),
        // The input ends with it.
        1 => draft.lines.truncate(place + 1),
        // Many more of them.
        2 => {
            let again = vec![draft.lines[place].clone(); 50];
            draft.lines.splice(place..place, again);
        }
        3 => draft.lines[place].text.make_ascii_lowercase(),
        _ => {}
    }
    draft.set_ends(rng);
    case(&draft, refused(61, place, 1))
}

/// One more of a letter that gets another number, since line and place come first; and one of the
/// other letter, which is none too many.
fn one_more_told_otherwise(rng: &mut Rng, which: u64) -> Case {
    let mut draft = many(rng, MOST, 2);
    let (t, f) = (last(&draft, b'T'), last(&draft, b'F'));
    let s = record_s(QUARTER, 1, (1, 1), ACCOUNT);
    match which % 5 {
        0 => {
            draft.insert(t + 1, s);
            case(&draft, refused(12, t + 1, 1))
        }
        1 => {
            draft.insert(f, record_e(QUARTER, FEIN, false, ACCOUNT));
            draft.insert(f + 1, s);
            case(&draft, refused(16, f + 1, 1))
        }
        2 => {
            draft.insert(f + 1, s);
            case(&draft, refused(20, f + 1, 1))
        }
        3 => {
            draft.insert(t, record_r(QUARTER, 5));
            case(&draft, Meant::Accepted)
        }
        _ => {
            draft.insert(t, s);
            let column = rng.column(1, 275);
            draft.lines[t].put(column, b"\x7F");
            case(&draft, refused(3, t, column as u64))
        }
    }
}

/// Sums of thousands of amounts, which no T can tell, or no F.
fn sums(which: u64) -> Case {
    let people = |count: usize, amount| vec![(1, amount, amount); count];
    match which % 4 {
        // The greatest sum there can be.
        0 => {
            let draft = tidy(
                QUARTER,
                QUARTER,
                &[Employer::of(FEIN, &people(MOST, MOST_OF_S))],
            );
            let t = last(&draft, b'T');
            case(&draft, refused(57, t, 175))
        }
        1 => {
            let draft = tidy(
                QUARTER,
                QUARTER,
                &[Employer::of(FEIN, &people(10_000, 9_999_999_999))],
            );
            case(&draft, Meant::Accepted)
        }
        2 => {
            let draft = tidy(
                QUARTER,
                QUARTER,
                &[Employer::of(FEIN, &people(10_000, 10_000_000_000))],
            );
            let t = last(&draft, b'T');
            case(&draft, refused(57, t, 175))
        }
        _ => {
            let list = vec![Employer::of(FEIN, &people(100, MOST_OF_S)); 11];
            let draft = tidy(QUARTER, QUARTER, &list);
            let f = last(&draft, b'F');
            case(&draft, refused(60, f, 41))
        }
    }
}
