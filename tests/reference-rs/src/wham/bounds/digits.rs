//! Every digit of the numbers that are compared with something, one up and one down.

use super::{refused_at, tidy_example, List, A, E, F, R, S, T};
use crate::wham::draft::put_due;

pub fn add(list: &mut List) {
    list.name("digits of numbers compared");
    for (place, first, last, number, told) in COMPARED {
        for column in first..=last {
            for step in [1, 9] {
                let mut draft = tidy_example();
                nudge(&mut draft.lines[place].text[column - 1], step);
                list.add(&draft, refused_at(number, place, told));
            }
        }
    }
    list.name("digits of totals that agree with each other");
    totals_of_t(list);
    list.name("digits of years");
    years_of_a(list);
}

/// A digit up by so many, nine being zero's neighbour.
fn nudge(digit: &mut u8, step: u8) {
    *digit = b'0' + (*digit - b'0' + step) % 10;
}

/// The line, its columns, and the number and column then told.
const COMPARED: [(usize, usize, usize, u8, usize); 13] = [
    (E, 2, 5, 42, 2),
    (E, 171, 172, 35, 171),
    (S, 44, 45, 35, 44),
    (S, 48, 51, 42, 48),
    (R, 2, 9, 91, 2),
    (T, 2, 8, 55, 2),
    (T, 112, 122, 57, 123),
    (T, 123, 136, 57, 123),
    (T, 175, 188, 57, 175),
    (T, 213, 226, 57, 123),
    (F, 2, 11, 58, 2),
    (F, 12, 21, 59, 12),
    (F, 41, 55, 60, 41),
];

/// A wrong 213-226 with the 123-136 that goes with it.
fn totals_of_t(list: &mut List) {
    for column in 213..=226 {
        for step in [1, 9] {
            let mut draft = tidy_example();
            nudge(&mut draft.lines[T].text[column - 1], step);
            put_due(&mut draft.lines[T]);
            list.add(&draft, refused_at(57, T, 213));
        }
    }
}

/// After the held year it is A's, before it E's, which is another one then.
fn years_of_a(list: &mut List) {
    for column in 2..=5 {
        for step in 1..=9 {
            let mut draft = tidy_example();
            nudge(&mut draft.lines[A].text[column - 1], step);
            let is_late = draft.lines[A].value(2, 5) > 2026;
            let meant = if is_late {
                refused_at(39, A, 2)
            } else {
                refused_at(42, E, 2)
            };
            list.add(&draft, meant);
        }
    }
    // The first digit of an identity number.
    for digit in b'0'..=b'9' {
        let mut draft = tidy_example();
        draft.lines[S].put(2, &[digit]);
        list.add_if(&draft, digit != b'9', refused_at(52, S, 2));
        draft.lines[S + 1].put(2, b"9");
        let first = if digit == b'9' { S } else { S + 1 };
        list.add(&draft, refused_at(52, first, 2));
    }
}
