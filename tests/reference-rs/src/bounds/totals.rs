//! Sums and counts in T and F.

use super::{refused, List, Q1};
use crate::draft::*;
use crate::gen::Meant;

pub fn add(list: &mut List) {
    list.name("sums of t");
    sums_that_t_can_tell(list);
    sums_that_t_cannot_tell(list);
    list.name("sums of f");
    sums_of_f(list);
    list.name("counts");
    counts(list);
    counts_without_s(list);
}

/// One employer with these wages; T says `told`.
fn told_by_t(wages: &[u64], told: u64) -> Draft {
    let employees = wages.iter().enumerate().map(|(k, w)| (k as u64 + 1, *w));
    let employees = employees.collect();
    let mut draft = tidy(Q1, Q1, &[Employer { fein: 1, employees }]);
    let t = draft.places(b'T')[0];
    draft.lines[t].put_number(27, 40, told);
    draft
}

fn refused_at_t(wages: &[u64]) -> Meant {
    refused(57, wages.len() as u64 + 3, 27)
}

/// One cent less than 10^14 stands in T.
fn sums_that_t_can_tell(list: &mut List) {
    let most: &[u64] = &[MOST_WAGES];
    for wages in [
        most,
        &[MOST_WAGES - 1, 1],
        &[1, MOST_WAGES - 1],
        &[0, MOST_WAGES, 0],
    ] {
        list.add(&told_by_t(wages, MOST_WAGES), Meant::Accepted);
        for told in [MOST_WAGES - 1, 0] {
            list.add(&told_by_t(wages, told), refused_at_t(wages));
        }
    }
    // A T that is right only in 32 bits.
    for wrong in [1 << 32, 1 << 33, 1 << 40] {
        list.add(&told_by_t(&[5, 6], 11 + wrong), refused(57, 5, 27));
        list.add(&told_by_t(&[wrong, 11], 11), refused(57, 5, 27));
    }
    // More than a number of 32 bits, to the cent.
    let odd = 90_071_992_547_409;
    list.add(&told_by_t(&[odd, 2], odd + 2), Meant::Accepted);
    list.add(&told_by_t(&[odd, 2], odd + 1), refused(57, 5, 27));
}

/// 10^14 or more never stands in T, however it is cut.
fn sums_that_t_cannot_tell(list: &mut List) {
    let two: &[u64] = &[MOST_WAGES, MOST_WAGES];
    let many = vec![MOST_WAGES; 19];
    for wages in [&[MOST_WAGES, 1], two, &[MOST_WAGES, 1_000], &many] {
        let sum: u64 = wages.iter().sum();
        for told in [
            sum % 100_000_000_000_000,
            sum % (1 << 32),
            sum % (1 << 46),
            MOST_WAGES,
            0,
        ] {
            list.add(&told_by_t(wages, told), refused_at_t(wages));
        }
    }
}

/// So many employers, each with one employee at these wages; F says `told`.
fn told_by_f(wages: &[u64], told: u64) -> Draft {
    let employ = |(k, wages): (usize, &u64)| Employer {
        fein: k as u64 + 1,
        employees: vec![(7, *wages)],
    };
    let employers: Vec<Employer> = wages.iter().enumerate().map(employ).collect();
    let mut draft = tidy(Q1, Q1, &employers);
    let f = draft.places(b'F')[0];
    draft.lines[f].put_number(41, 55, told);
    draft
}

/// Sums at 10^15: one cent less stands in F, more never does.
fn sums_of_f(list: &mut List) {
    let bound: u64 = 1_000_000_000_000_000;
    let mut wages = vec![MOST_WAGES; 10];
    let missing = bound - 1 - wages.iter().sum::<u64>();
    wages.push(missing);
    let refused_at_f = refused(60, wages.len() as u64 * 3 + 2, 41);
    list.add(&told_by_f(&wages, bound - 1), Meant::Accepted);
    for told in [bound - 2, 0, MOST_WAGES] {
        list.add(&told_by_f(&wages, told), refused_at_f);
    }
    for more in [1, 2, 1_000, MOST_WAGES - missing] {
        wages[10] = missing + more;
        let sum: u64 = wages.iter().sum();
        for told in [sum % bound, bound - 1, 0, sum % (1 << 49)] {
            list.add(&told_by_f(&wages, told), refused_at_f);
        }
    }
    // F must match the S records, not the T records: T is refused first.
    let mut draft = told_by_f(&[100, 200], 400);
    draft.lines[3].put_number(27, 40, 200);
    list.add(&draft, refused(57, 4, 27));
}

/// Counts one off, and near powers of two: of S records in T, of both in F.
fn counts(list: &mut List) {
    let big = 1 << 32;
    let in_t = [0, 1, 2, 3, 258, 65_538, 9_999_999];
    let in_f = [
        0,
        1,
        2,
        3,
        257,
        258,
        65_537,
        65_538,
        big + 1,
        big + 2,
        9_999_999_999,
    ];
    // Line (from 0), columns, what is right, the number else.
    for (place, first, last, right, number) in
        [(4, 2, 8, 2, 55), (5, 2, 11, 2, 58), (5, 12, 21, 1, 59)]
    {
        for told in if place == 4 { &in_t[..] } else { &in_f } {
            let mut draft = example(Q1, Q1);
            draft.lines[place].put_number(first, last, *told);
            let refusal = refused(number, place as u64 + 1, first as u64);
            list.add_if(&draft, *told == right, refusal);
        }
    }
}

/// None under an E saying 1: a wrong count is told before that.
fn counts_without_s(list: &mut List) {
    for (told, number) in [(0, 56), (1, 55), (9_999_999, 55)] {
        let mut draft = zero_return(Q1, Q1);
        draft.lines[1].put(190, b"1");
        draft.lines[2].put_number(2, 8, told);
        list.add(&draft, refused(number, 3, 2));
    }
}
