//! Identity numbers, FEINs, flags, names, texts and account numbers.

use super::{refused, List, Q1, Q3};
use crate::draft::*;
use crate::gen::Meant;

pub fn add(list: &mut List) {
    list.name("identity numbers");
    identity_prefixes(list);
    identity_numbers_that_repeat(list);
    list.name("feins");
    fein_prefixes(list);
    feins_of_zeros(list);
    feins_that_repeat(list);
    list.name("flags");
    flags(list);
    flags_that_say_whether_s_follow(list);
    list.name("names");
    names(list);
    list.name("texts");
    texts(list);
    list.name("accounts");
    accounts(list);
}

/// Around 666 and 9, around the ends of what the IRS issues after 9, and what only looks like them.
fn identity_prefixes(list: &mut List) {
    let passing = [
        "000000000",
        "000000001",
        "000000666",
        "066600000",
        "066666666",
        "099999999",
        "166600000",
        "665999999",
        "667000000",
        "676666666",
        "899999999",
        "900500000",
        "950500000",
        "999659999",
        "900700000",
        "966706700",
        "999889999",
        "900900000",
        "966916700",
        "999929999",
        "900940000",
        "966990000",
        "999999999",
    ];
    let others = [
        "666000000",
        "666000001",
        "666123456",
        "666999999",
        "900000000",
        "900000001",
        "912345678",
        "950050505",
        "955495555",
        "999499999",
        "900660000",
        "999699999",
        "900890000",
        "988898888",
        "999899999",
        "900930000",
        "999939999",
    ];
    for id in passing.into_iter().chain(others) {
        let mut draft = example(Q1, Q1);
        draft.lines[3].put(2, id.as_bytes());
        list.add_if(&draft, passing.contains(&id), refused(52, 4, 2));
    }
}

/// Two employers with employees of these identity numbers.
fn two_employers(first: &[u64], second: &[u64]) -> Draft {
    let employ = |fein, ids: &[u64]| Employer {
        fein,
        employees: ids.iter().map(|id| (*id, 100)).collect(),
    };
    tidy(Q1, Q1, &[employ(11, first), employ(22, second)])
}

fn identity_numbers_that_repeat(list: &mut List) {
    let id = 123_456_789;
    let near = [1, 256, 65_536, 1 << 24, 100_000_000].map(|more| id + more);
    for other in near.into_iter().chain([id, 23_456_789]) {
        let draft = two_employers(&[id, other], &[1]);
        list.add_if(&draft, other != id, refused(53, 4, 2));
    }
    // Zeros between two equal numbers; the same person under two employers, and back again.
    list.add(&two_employers(&[0, 0, 0], &[0, 0]), Meant::Accepted);
    list.add(&two_employers(&[5, 0, 5], &[1]), refused(53, 5, 2));
    list.add(&two_employers(&[5, 6], &[6, 5]), Meant::Accepted);
    list.add(&two_employers(&[5, 6], &[6, 5, 6]), refused(53, 9, 2));
    list.add(&two_employers(&[0, 5], &[5, 0, 0]), Meant::Accepted);
}

/// 68, 69 and 70 in A and E.
fn fein_prefixes(list: &mut List) {
    let passing = [
        "000000001",
        "000000069",
        "006900000",
        "069000000",
        "100000000",
        "600000000",
        "680000000",
        "689999999",
        "700000000",
        "769000000",
        "960000000",
        "999999999",
    ];
    let others = ["690000000", "690000001", "699999999"];
    for fein in passing.into_iter().chain(others) {
        let passes = passing.contains(&fein);
        list.add_if(&with_fein_in_a(fein), passes, refused(44, 1, 6));
        list.add_if(&with_fein_under_e(fein), passes, refused(44, 2, 6));
    }
}

fn with_fein_in_a(fein: &str) -> Draft {
    let mut draft = example(Q1, Q1);
    draft.lines[0].put(6, fein.as_bytes());
    draft
}

/// Another FEIN in E, S and T.
fn with_fein_under_e(fein: &str) -> Draft {
    let mut draft = example(Q1, Q1);
    for (place, first) in [(1, 6), (2, 147), (3, 147), (4, 13)] {
        draft.lines[place].put(first, fein.as_bytes());
    }
    draft
}

/// 64 in A and E; in S and T, where it is not the open E's, 46. A digit that is none comes before it.
fn feins_of_zeros(list: &mut List) {
    let zeros = "000000000";
    list.add(&with_fein_in_a(zeros), refused(64, 1, 6));
    list.add(&with_fein_under_e(zeros), refused(64, 2, 6));
    for (place, first) in [(2, 147), (3, 147), (4, 13)] {
        let mut draft = example(Q1, Q1);
        draft.lines[place].put(first, zeros.as_bytes());
        list.add(&draft, refused(46, place as u64 + 1, first as u64));
    }
    for (fein, column) in [("00000000 ", 14), ("O00000000", 6), ("         ", 6)] {
        list.add(&with_fein_in_a(fein), refused(30, 1, column));
        list.add(&with_fein_under_e(fein), refused(30, 2, column));
    }
}

fn feins_that_repeat(list: &mut List) {
    // Lines of zero returns: A, then E and T for each.
    let mut add = |feins: &[u64], meant: Meant| {
        let employ = |fein: &u64| Employer {
            fein: *fein,
            employees: Vec::new(),
        };
        let employers: Vec<Employer> = feins.iter().map(employ).collect();
        list.add(&tidy(Q1, Q1, &employers), meant);
    };
    add(&[1, 2, 3], Meant::Accepted);
    add(&[1, 1], refused(45, 4, 6));
    add(&[1, 2, 1], refused(45, 6, 6));
    add(&[1, 2, 2], refused(45, 6, 6));
    add(&[0, 0], refused(64, 2, 6));
    add(&[1, 2, 0], refused(64, 6, 6));
    add(&[1, 0, 1], refused(64, 4, 6));
    // "nor with A's FEIN"
    add(&[123_456_789], Meant::Accepted);
}

const MARKS: [u8; 16] = *b"01 2/:9AaOoIl-~!";

/// Each flag with many characters, 191 with all of them, in period 09 and another.
fn flags(list: &mut List) {
    for quarter in [Q1, Q3] {
        for (column, mark) in MARKS.into_iter().flat_map(|m| [(187, m), (282, m)]) {
            let mut draft = example(Q3, quarter);
            draft.lines[1].put(column, &[mark]);
            let refusal = match (mark, column) {
                (b'0', _) | (b'1', 187) => None,
                // A final return without a date.
                (b'1', _) => Some(refused(51, 2, 283)),
                _ => Some(refused(47, 2, column as u64)),
            };
            list.add_unless(&draft, refusal);
        }
        for mark in 0x20..=0x7E {
            let mut draft = example(Q3, quarter);
            draft.lines[1].put(191, &[mark]);
            let passes = quarter != Q3 || mark == b'0' || mark == b'1';
            list.add_if(&draft, passes, refused(47, 2, 191));
        }
    }
}

/// 190, with S records after it and with none.
fn flags_that_say_whether_s_follow(list: &mut List) {
    for mark in MARKS {
        for (mut draft, s_follow) in [(example(Q1, Q1), true), (zero_return(Q1, Q1), false)] {
            draft.lines[1].put(190, &[mark]);
            let refusal = match (mark, s_follow) {
                (b'0', false) | (b'1', true) => None,
                (b'0', true) => Some(refused(16, 3, 1)),
                (b'1', false) => Some(refused(56, 3, 2)),
                _ => Some(refused(47, 2, 190)),
            };
            list.add_unless(&draft, refusal);
        }
    }
}

/// Every character in the first and in the last column of both names.
fn names(list: &mut List) {
    for mark in 0x20..=0x7E_u8 {
        for (first, last) in [(11, 30), (31, 42)] {
            for column in [first, last] {
                let mut draft = example(Q1, Q1);
                draft.lines[2].put(column, &[mark]);
                let refusal = if mark == b' ' && column == first {
                    Some(refused(33, 3, first as u64))
                } else if mark.is_ascii_alphabetic() || b" -'".contains(&mark) {
                    None
                } else {
                    Some(refused(54, 3, column as u64))
                };
                list.add_unless(&draft, refusal);
            }
        }
    }
}

/// The texts: line (from 0), first and last column, whether they are required.
const TEXTS: [(usize, usize, usize, bool); 13] = [
    (0, 24, 73, true),
    (0, 74, 113, true),
    (0, 114, 138, true),
    (0, 164, 193, true),
    (0, 204, 207, false),
    (1, 24, 73, true),
    (1, 74, 113, true),
    (1, 114, 138, true),
    (1, 201, 230, true),
    (1, 231, 260, true),
    (1, 271, 274, false),
    (2, 11, 30, true),
    (2, 31, 42, true),
];

/// Texts of one character, in the first or the last column; full ones; none.
fn texts(list: &mut List) {
    for (place, first, last, required) in TEXTS {
        let (line, column) = (place as u64 + 1, first as u64);
        let width = last + 1 - first;
        let with = |text: Vec<u8>| {
            let mut draft = example(Q1, Q1);
            draft.lines[place].put(first, &text);
            draft
        };
        let blanks = vec![b' '; width];
        let (mut only_first, mut only_last) = (blanks.clone(), blanks.clone());
        only_first[0] = b'X';
        only_last[width - 1] = b'X';
        list.add_if(&with(blanks), !required, refused(32, line, column));
        list.add(&with(only_first), Meant::Accepted);
        list.add(&with(only_last), refused(33, line, column));
        list.add(&with(vec![b'X'; width]), Meant::Accepted);
    }
}

/// Account numbers: ten blanks, ten digits, and all mixtures of a run of each.
fn accounts(list: &mut List) {
    for blanks in 0..=10 {
        for start in [0, 10 - blanks] {
            let mut text = [b'7'; 10];
            text[start..start + blanks].fill(b' ');
            let mut draft = zero_return(Q1, Q1);
            draft.lines[1].put(173, &text);
            let passes = blanks == 0 || blanks == 10;
            list.add_if(&draft, passes, refused(30, 2, 173 + start as u64));
        }
    }
}
