//! Long files: tables exactly full and one more, 100,000 S records and one more, and sums at 10^14
//! and 10^15 of many records.

use crate::ack::ROOM;
use crate::calendar::Quarter;
use crate::draft::*;
use crate::edits::Refusal;
use crate::gen::{Case, Meant};
use crate::rng::Rng;

const QUARTER: Quarter = Quarter::new(2026, 6);
const FEIN: u64 = 12_345_678;
const MOST_S: usize = 100_000;

fn case(draft: &Draft, meant: Meant) -> Case {
    let name = format!("{} lines", draft.lines.len());
    Case::new("big", name, draft.input(), meant)
}

fn refused(number: u8, place: usize, column: u64) -> Meant {
    Meant::Refused(Refusal::new(number, place as u64 + 1, column))
}

/// The place of the last line with this letter.
fn last(draft: &Draft, letter: u8) -> usize {
    let place = (0..draft.lines.len()).rev().find(|p| draft.is(*p, letter));
    place.expect("there is such a line")
}

/// Employees with so many different identity numbers, and zeros strewn between.
pub fn employees(rng: &mut Rng, numbers: usize, zeros: usize) -> Vec<(u64, u64)> {
    // An odd step goes through all numbers of 29 bits before one comes again.
    let (start, step) = (rng.below(1 << 29), rng.next() | 1);
    let mut ids: Vec<u64> = (0..)
        .map(|k: u64| start.wrapping_add(step.wrapping_mul(k)) % (1 << 29))
        .filter(|id| *id != 0)
        .take(numbers)
        .collect();
    for _ in 0..zeros {
        let place = rng.index(ids.len() + 1);
        ids.insert(place, 0);
    }
    ids.into_iter()
        .map(|id| (id, rng.below(1_000_000)))
        .collect()
}

fn one_employer(employees: Vec<(u64, u64)>) -> Draft {
    let fein = FEIN;
    tidy(QUARTER, QUARTER, &[Employer { fein, employees }])
}

/// So many employers with no or one employee, and with returns of every kind.
fn employers(rng: &mut Rng, count: usize) -> Draft {
    let start = rng.below(100_000_000);
    let employ = |k: u64| Employer {
        fein: start + k * 1_000,
        employees: match rng.one_in(20) {
            true => vec![(k + 1, k)],
            false => Vec::new(),
        },
    };
    let list: Vec<Employer> = (0..count as u64).map(employ).collect();
    let mut draft = tidy(QUARTER, QUARTER, &list);
    for place in draft.places(b'E') {
        let e = &mut draft.lines[place];
        put_number(&mut e.text, 187, 187, rng.below(2));
        if rng.one_in(3) {
            put_final(&mut e.text, random_date(rng, QUARTER));
        }
    }
    draft
}

/// Gives the last S this identity number.
fn set_last_id(draft: &mut Draft, id: u64) -> usize {
    let place = last(draft, b'S');
    draft.lines[place].put_number(2, 10, id);
    place
}

/// Gives the last E this FEIN.
fn set_last_fein(draft: &mut Draft, fein: u64) -> usize {
    let place = last(draft, b'E');
    draft.lines[place].put_number(6, 14, fein);
    place
}

/// One number more than the id table holds: 62, at the last S.
pub fn ids_overflow(rng: &mut Rng) -> Case {
    let zeros = rng.index(20);
    let mut all = employees(rng, ROOM.ids + 1, zeros);
    // No zero after the last number.
    while all.last().is_some_and(|(id, _)| *id == 0) {
        all.pop();
    }
    let mut draft = one_employer(all);
    let place = last(&draft, b'S');
    if rng.one_in(3) {
        // A break in a later column does not count.
        draft.lines[place].put(11, b"1");
    }
    draft.set_ends(rng);
    case(&draft, refused(62, place, 2))
}

/// One employer more than the list holds: 63, at the last E.
pub fn employers_overflow(rng: &mut Rng) -> Case {
    let mut draft = employers(rng, ROOM.employers + 1);
    let place = last(&draft, b'E');
    if rng.one_in(3) {
        // A break in a later column does not count.
        draft.lines[place].put(24, b" ");
    }
    draft.set_ends(rng);
    case(&draft, refused(63, place, 6))
}

/// One employer with one number more than the id table holds.
fn one_id_more(rng: &mut Rng) -> Draft {
    one_employer(employees(rng, ROOM.ids + 1, 0))
}

fn one_employer_more(rng: &mut Rng) -> Draft {
    employers(rng, ROOM.employers + 1)
}

/// A table exactly full, and what else can be said of a record then.
pub fn full(rng: &mut Rng, which: u64) -> Case {
    match which % 8 {
        0 => {
            let zeros = rng.index(20);
            let draft = one_employer(employees(rng, ROOM.ids, zeros));
            case(&draft, Meant::Accepted)
        }
        1 => case(&employers(rng, ROOM.employers), Meant::Accepted),
        2 => an_id_again(rng),
        3 => a_fein_again(rng),
        // Zeros take no room.
        4 => {
            let mut draft = one_id_more(rng);
            set_last_id(&mut draft, 0);
            case(&draft, Meant::Accepted)
        }
        5 => {
            let mut draft = one_id_more(rng);
            let place = set_last_id(&mut draft, 666_000_001);
            case(&draft, refused(52, place, 2))
        }
        6 => {
            let mut draft = one_employer_more(rng);
            let place = set_last_fein(&mut draft, 690_000_000);
            case(&draft, refused(44, place, 6))
        }
        _ => the_same_people_twice(rng),
    }
}

/// A number that repeats is told before the full table.
fn an_id_again(rng: &mut Rng) -> Case {
    let mut draft = one_id_more(rng);
    let again = draft.lines[2 + rng.index(ROOM.ids)].value(2, 10);
    let place = set_last_id(&mut draft, again);
    case(&draft, refused(53, place, 2))
}

/// So is a FEIN.
fn a_fein_again(rng: &mut Rng) -> Case {
    let mut draft = one_employer_more(rng);
    let earlier = draft.places(b'E')[rng.index(ROOM.employers)];
    let again = draft.lines[earlier].value(6, 14);
    let place = set_last_fein(&mut draft, again);
    case(&draft, refused(45, place, 6))
}

/// Room is used again from each E on.
fn the_same_people_twice(rng: &mut Rng) -> Case {
    let first = employees(rng, ROOM.ids, 0);
    let mut second = first.clone();
    rng.shuffle(&mut second);
    let employers: Vec<Employer> = [(FEIN, first), (FEIN + 1, second)]
        .into_iter()
        .map(|(fein, employees)| Employer { fein, employees })
        .collect();
    case(&tidy(QUARTER, QUARTER, &employers), Meant::Accepted)
}

/// The long files, by turns: half of them have one S too many.
pub fn long(rng: &mut Rng, turn: u64) -> Case {
    let round = turn / 10;
    match turn % 10 {
        1 => hundred_thousand(rng, round),
        3 => full(rng, round),
        5 => one_more_told_otherwise(rng, round),
        7 => sums(rng, round),
        9 => match round % 3 {
            0 => greatest_sum(),
            1 => ids_overflow(rng),
            _ => employers_overflow(rng),
        },
        even => one_more(rng, even / 2),
    }
}

/// So many S records under employers of at most 8,000 each; a tenth of them applied for.
fn many_s(rng: &mut Rng, count: usize) -> Draft {
    let mut list = Vec::new();
    let mut left = count;
    while left > 0 {
        let here = left.min(rng.column(4_000, 8_000));
        let zeros = here / 10;
        list.push(Employer {
            fein: FEIN + list.len() as u64,
            employees: employees(rng, here - zeros, zeros),
        });
        left -= here;
    }
    tidy(QUARTER, QUARTER, &list)
}

/// So many S records under one E, all applied for.
fn all_applied_for(count: usize) -> Draft {
    one_employer(vec![(0, 7); count])
}

/// 100,000 S records are accepted, under one employer and under many.
fn hundred_thousand(rng: &mut Rng, which: u64) -> Case {
    let mut draft = match which % 2 {
        0 => many_s(rng, MOST_S),
        _ => all_applied_for(MOST_S),
    };
    draft.set_ends(rng);
    case(&draft, Meant::Accepted)
}

/// One S more: 61, wherever it stands and whatever else is wrong with its fields.
fn one_more(rng: &mut Rng, which: u64) -> Case {
    let mut draft = match which % 5 {
        0 => many_s(rng, MOST_S + 1),
        // The first S under another E.
        1 => {
            let mut draft = all_applied_for(MOST_S);
            let f = last(&draft, b'F');
            draft.insert(f, record_e(QUARTER, FEIN + 1, true, &AUGUSTA));
            draft.insert(f + 1, record_s(QUARTER, FEIN + 1, 1, 1));
            draft
        }
        // Fields of it that break edits do not count: number, name, FEIN.
        2 => {
            let mut draft = many_s(rng, MOST_S + 1);
            let place = set_last_id(&mut draft, 900_000_000);
            draft.lines[place].put(11, b" 1");
            draft.lines[place].put(147, b"000000000");
            draft
        }
        // Many more of them.
        3 => all_applied_for(MOST_S + 1 + rng.index(100)),
        // The input ends with it.
        _ => {
            let mut draft = many_s(rng, MOST_S + 1);
            let place = last(&draft, b'S');
            draft.lines.truncate(place + 1);
            draft
        }
    };
    draft.set_ends(rng);
    let place = draft.places(b'S')[MOST_S];
    case(&draft, refused(61, place, 1))
}

/// One S more that gets another number, since place and line come first.
fn one_more_told_otherwise(rng: &mut Rng, which: u64) -> Case {
    let mut draft = all_applied_for(MOST_S);
    let (t, f) = (last(&draft, b'T'), last(&draft, b'F'));
    let s = record_s(QUARTER, FEIN, 1, 1);
    match which % 4 {
        0 => {
            draft.insert(t + 1, s);
            case(&draft, refused(12, t + 1, 1))
        }
        1 => {
            draft.insert(f, record_e(QUARTER, FEIN + 1, false, &AUGUSTA));
            draft.insert(f + 1, record_s(QUARTER, FEIN + 1, 1, 1));
            case(&draft, refused(16, f + 1, 1))
        }
        2 => {
            draft.insert(f + 1, s);
            case(&draft, refused(20, f + 1, 1))
        }
        _ => {
            draft.insert(t, s);
            let column = rng.column(1, 290);
            draft.lines[t].put(column, b"\x7F");
            case(&draft, refused(3, t, column as u64))
        }
    }
}

/// The greatest sum there can be: no T can tell it.
fn greatest_sum() -> Case {
    let draft = one_employer(vec![(0, MOST_WAGES); MOST_S]);
    let t = last(&draft, b'T');
    case(&draft, refused(57, t, 27))
}

/// So many wages that add up to this sum.
fn wages_of_sum(rng: &mut Rng, count: usize, sum: u64) -> Vec<(u64, u64)> {
    let share = sum / count as u64;
    let mut wages: Vec<u64> = (1..count).map(|_| rng.below(share + 1)).collect();
    wages.push(sum - wages.iter().sum::<u64>());
    assert!(wages.iter().all(|w| *w <= MOST_WAGES));
    rng.shuffle(&mut wages);
    wages.into_iter().map(|wages| (0, wages)).collect()
}

/// Sums of thousands of wages at 10^14 in T and at 10^15 in F, and one cent less.
fn sums(rng: &mut Rng, which: u64) -> Case {
    let of_t = |rng: &mut Rng, sum| one_employer(wages_of_sum(rng, 5_000, sum));
    let of_f = |rng: &mut Rng, last_sum| {
        let employ = |k: u64| Employer {
            fein: FEIN + k,
            employees: wages_of_sum(rng, 500, if k < 10 { MOST_WAGES } else { last_sum }),
        };
        tidy(QUARTER, QUARTER, &(0..11).map(employ).collect::<Vec<_>>())
    };
    match which % 4 {
        0 => case(&of_t(rng, MOST_WAGES), Meant::Accepted),
        1 => {
            let draft = of_t(rng, MOST_WAGES + 1);
            case(&draft, refused(57, last(&draft, b'T'), 27))
        }
        // Ten employers with one cent less than 10^14 each lack ten cents of 10^15.
        2 => case(&of_f(rng, 9), Meant::Accepted),
        _ => {
            let draft = of_f(rng, 10);
            case(&draft, refused(60, last(&draft, b'F'), 41))
        }
    }
}
