//! Two inputs that are alike but for the employees: the hypotheses of demand 3, by lines and columns.
//!
//! "Take two files of equal bytes except in the identity number, names and wages of S records (lines
//! of 290 characters). Let all those fields hold only permitted characters and meet their own rules
//! in both files, identity numbers be zero in the same places and repeat under an employer in the
//! same places, and the wages under each employer have the same total."
//!
//! The rules of the four fields are read here once more, apart from `edits`, so that a pair is not
//! held against the very code that answers it.

use crate::layout::LENGTH;
use crate::lines::lines_of;
use std::collections::HashSet;

/// What is asked of two inputs.
#[derive(Clone, Copy, Debug, PartialEq, Eq)]
pub enum Hypothesis {
    /// "With the same quarter": the same header.
    Quarter,
    /// "equal bytes except in the identity number, names and wages of S records"
    Bytes,
    /// "all those fields hold only permitted characters and meet their own rules in both files"
    OwnRules,
    /// "identity numbers be zero in the same places"
    Zeros,
    /// "and repeat under an employer in the same places"
    Repeats,
    /// "the wages under each employer have the same total"
    Wages,
}

pub const HYPOTHESES: [Hypothesis; 6] = [
    Hypothesis::Quarter,
    Hypothesis::Bytes,
    Hypothesis::OwnRules,
    Hypothesis::Zeros,
    Hypothesis::Repeats,
    Hypothesis::Wages,
];

/// Six digits and LF. What stands in their place is told as 70, and the file is what is after.
pub const HEADER: usize = 7;

/// The fields of an employee on an S record: first and last column.
pub const IDENTITY: (usize, usize) = (2, 10);
pub const NAMES: [(usize, usize); 2] = [(11, 30), (31, 42)];
pub const WAGES: (usize, usize) = (64, 77);

/// The same columns as the two runs that they make.
const PERSONAL: [(usize, usize); 2] = [(2, 42), (64, 77)];

/// Whether demand 3 promises these two inputs the same acknowledgement.
pub fn alike(one: &[u8], other: &[u8]) -> bool {
    broken(one, other).is_empty()
}

/// The hypotheses that two inputs break.
pub fn broken(one: &[u8], other: &[u8]) -> Vec<Hypothesis> {
    let (one, other) = (Sheet::of(one), Sheet::of(other));
    let breaks = |hypothesis: &Hypothesis| !holds(*hypothesis, &one, &other);
    HYPOTHESES.into_iter().filter(breaks).collect()
}

fn holds(hypothesis: Hypothesis, one: &Sheet, other: &Sheet) -> bool {
    match hypothesis {
        Hypothesis::Quarter => one.header == other.header,
        Hypothesis::Bytes => one.blotted() == other.blotted(),
        Hypothesis::OwnRules => [one, other]
            .iter()
            .all(|sheet| sheet.employees().all(meets_own_rules)),
        Hypothesis::Zeros => one
            .employees()
            .map(has_zero)
            .eq(other.employees().map(has_zero)),
        Hypothesis::Repeats => one.of_each_employer(repeats) == other.of_each_employer(repeats),
        Hypothesis::Wages => one.of_each_employer(total) == other.of_each_employer(total),
    }
}

/// An input as its header and lines, each with its end.
struct Sheet<'a> {
    header: &'a [u8],
    lines: Vec<(&'a [u8], &'a [u8])>,
}

impl<'a> Sheet<'a> {
    fn of(input: &'a [u8]) -> Sheet<'a> {
        let (header, mut rest) = input.split_at(input.len().min(HEADER));
        let mut lines = Vec::new();
        for cut in lines_of(rest) {
            let (line, behind) = rest.split_at(cut.taken());
            lines.push(line.split_at(cut.text.len()));
            rest = behind;
        }
        Sheet { header, lines }
    }

    /// The lines with an employee's columns blotted out.
    fn blotted(&self) -> Vec<(Vec<u8>, &'a [u8])> {
        let blot = |(text, end): &(&'a [u8], &'a [u8])| (blotted(text), *end);
        self.lines.iter().map(blot).collect()
    }

    /// All S records, "wherever they stand".
    fn employees(&self) -> impl Iterator<Item = &'a [u8]> + '_ {
        let texts = self.lines.iter().map(|(text, _)| *text);
        texts.filter(|text| is_record(text, b'S'))
    }

    /// What is asked of the S records under each E: "those after it with no other line between".
    fn of_each_employer<T>(&self, asked: fn(&[&'a [u8]]) -> T) -> Vec<T> {
        let is_e = |place: &usize| is_record(self.lines[*place].0, b'E');
        let places = (0..self.lines.len()).filter(is_e);
        let under = |place: usize| -> Vec<&'a [u8]> {
            let behind = self.lines[place + 1..].iter().map(|(text, _)| *text);
            behind.take_while(|text| is_record(text, b'S')).collect()
        };
        places.map(|place| asked(&under(place))).collect()
    }
}

/// Whether a line has 290 characters and this capital or its small letter in front; nothing else is
/// asked of it.
pub fn is_record(text: &[u8], letter: u8) -> bool {
    text.len() == LENGTH && text[0].to_ascii_uppercase() == letter
}

pub fn columns(text: &[u8], (first, last): (usize, usize)) -> &[u8] {
    &text[first - 1..last]
}

fn blotted(text: &[u8]) -> Vec<u8> {
    let mut copy = text.to_vec();
    if is_record(text, b'S') {
        for (first, last) in PERSONAL {
            copy[first - 1..last].fill(b' ');
        }
    }
    copy
}

fn meets_own_rules(text: &[u8]) -> bool {
    let is_permitted = |c: &u8| (0x20..=0x7E).contains(c);
    let all_permitted = |run: &(usize, usize)| columns(text, *run).iter().all(is_permitted);
    PERSONAL.iter().all(all_permitted)
        && is_identity(columns(text, IDENTITY))
        && NAMES.iter().all(|name| is_name(columns(text, *name)))
        && is_number(columns(text, WAGES))
}

/// "all digits"
pub fn is_number(field: &[u8]) -> bool {
    field.iter().all(u8::is_ascii_digit)
}

/// "begins with 666 or 9 52"; by document 02 (i) those with 9 pass that the IRS issues. That a number
/// repeats is no rule of the field by itself.
pub fn is_identity(field: &[u8]) -> bool {
    let issued = |digits| matches!(digits, 50..=65 | 70..=88 | 90..=92 | 94..=99);
    let passes = |id: u64| match id / 1_000_000 {
        900..=999 => issued(id / 10_000 % 100),
        front => front != 666,
    };
    is_number(field) && passes(value(field, (1, field.len())))
}

/// "required text, then only letters, blank, hyphen, apostrophe"
pub fn is_name(field: &[u8]) -> bool {
    let in_a_name = |c: &u8| c.is_ascii_alphabetic() || b" -'".contains(c);
    !field.starts_with(b" ") && field.iter().all(in_a_name)
}

/// The number in a field; 0 where there is none.
pub fn value(text: &[u8], field: (usize, usize)) -> u64 {
    let digits = columns(text, field);
    if !is_number(digits) {
        return 0;
    }
    digits
        .iter()
        .fold(0, |sum, digit| sum * 10 + u64::from(digit - b'0'))
}

fn has_zero(s: &[u8]) -> bool {
    value(s, IDENTITY) == 0
}

/// Of each S record, whether its number stands on an earlier one.
fn repeats(under: &[&[u8]]) -> Vec<bool> {
    let mut earlier = HashSet::new();
    let is_again = |s: &&[u8]| !earlier.insert(value(s, IDENTITY));
    under.iter().map(is_again).collect()
}

fn total(under: &[&[u8]]) -> u128 {
    under.iter().map(|s| u128::from(value(s, WAGES))).sum()
}

#[cfg(test)]
mod tests {
    use super::*;
    use crate::calendar::Quarter;
    use crate::draft::*;

    const QUARTER: Quarter = Quarter::new(2026, 3);

    /// A tidy file of employers with these identity numbers and wages.
    fn file_of(employers: &[&[(u64, u64)]]) -> Draft {
        let employ = |(fein, employees): (u64, &&[(u64, u64)])| Employer {
            fein,
            employees: employees.to_vec(),
        };
        let list: Vec<Employer> = (10_000_001..).zip(employers).map(employ).collect();
        tidy(QUARTER, QUARTER, &list)
    }

    /// What two such files break; they have the same T and F records where the totals are the same.
    fn broken_by(one: &[&[(u64, u64)]], other: &[&[(u64, u64)]]) -> Vec<Hypothesis> {
        broken(&file_of(one).input(), &file_of(other).input())
    }

    #[test]
    fn people_who_are_alike() {
        let one: &[&[(u64, u64)]] = &[&[(1, 5), (2, 6), (1, 7), (0, 0)], &[(3, 1), (0, 2)]];
        // Another one is repeated, in the same place, and somebody works for both employers.
        let other: &[&[(u64, u64)]] = &[&[(3, 0), (4, 18), (4, 0), (0, 0)], &[(3, 3), (0, 0)]];
        assert_eq!(broken_by(one, other), []);
        assert!(alike(&file_of(one).input(), &file_of(other).input()));
        assert_eq!(broken_by(one, one), []);
    }

    #[test]
    fn people_who_are_not() {
        let one: &[&[(u64, u64)]] = &[&[(1, 5), (2, 6), (0, 7)]];
        let broken_with = |other: &[(u64, u64)]| broken_by(one, &[other]);
        assert_eq!(
            broken_with(&[(1, 5), (0, 6), (2, 7)]),
            [Hypothesis::Zeros],
            "zero elsewhere"
        );
        assert_eq!(
            broken_with(&[(1, 5), (1, 6), (0, 7)]),
            [Hypothesis::Repeats],
            "a repeat"
        );
        // The totals that T and F tell are bytes outside.
        assert_eq!(
            broken_with(&[(1, 5), (2, 6), (0, 8)]),
            [Hypothesis::Bytes, Hypothesis::Wages]
        );
        assert_eq!(broken_by(&[&[(0, 1), (0, 2)]], &[&[(7, 1), (7, 2)]]), {
            [Hypothesis::Zeros]
        });
    }

    /// Every column of an S record, and of the lines that look like one.
    #[test]
    fn columns_that_may_differ() {
        let one = file_of(&[&[(1, 5)]]);
        let differs_at = |letter: &[u8], cut: usize, column: usize| {
            let mut one = one.clone();
            one.lines[2].put(1, letter);
            one.lines[2].text.truncate(cut);
            let mut other = one.clone();
            other.lines[2].put(column, b"~");
            broken(&one.input(), &other.input()).contains(&Hypothesis::Bytes)
        };
        for column in 2..=289 {
            let personal = (2..=42).contains(&column) || (64..=77).contains(&column);
            assert_eq!(differs_at(b"S", 290, column), !personal, "{column}");
            assert_eq!(differs_at(b"s", 290, column), !personal, "{column}");
            assert!(differs_at(b"T", 290, column) && differs_at(b"S", 289, column));
        }
        assert!(differs_at(b"S", 290, 1) && differs_at(b"S", 290, 290));
    }

    #[test]
    fn ends_and_header_may_not_differ() {
        let one = file_of(&[&[(1, 5)]]);
        let broken_with = |change: fn(&mut Draft)| {
            let mut other = one.clone();
            change(&mut other);
            broken(&one.input(), &other.input())
        };
        let bytes = [Hypothesis::Bytes];
        assert_eq!(broken_with(|d| d.lines[2].end = CR.to_vec()), bytes);
        assert_eq!(broken_with(|d| d.lines[4].end.clear()), bytes);
        assert_eq!(broken_with(|d| d.push(Vec::new())), bytes);
        assert_eq!(broken_with(|d| d.header[5] = b'6'), [Hypothesis::Quarter]);
    }

    #[test]
    fn rules_of_the_fields() {
        for id in [b"000000000", b"665999999", b"667000000", b"899999999"] {
            assert!(is_identity(id));
        }
        for id in [b"666000000", b"666999999", b"900000000", b"12345678 "] {
            assert!(!is_identity(id));
        }
        for id in [b"900500000", b"999659999", b"912701234", b"988889999"] {
            assert!(is_identity(id));
        }
        for id in [b"999499999", b"900660000", b"950890000", b"970930000"] {
            assert!(!is_identity(id));
        }
        for name in [&b"O'NEIL-ROY  "[..], b"o'neil-roy  ", b"-", b"'  A"] {
            assert!(is_name(name));
        }
        for name in [&b" ANNE"[..], b"    ", b"ANNE2", b"ANNE.", b"ANNE\x7F"] {
            assert!(!is_name(name));
        }
        assert!(is_number(b"00000000000000") && !is_number(b"0000000000000O"));
    }

    /// S records under no E are bound by their own rules and by zeros alone.
    #[test]
    fn under_no_employer() {
        let with_strays = |people: &[(u64, u64)]| {
            let mut draft = file_of(&[&[(1, 5)]]);
            for (id, wages) in people {
                draft.push(record_s(QUARTER, 10_000_001, *id, *wages));
            }
            // The last line may lack its end.
            draft.lines.last_mut().unwrap().end.clear();
            draft.input()
        };
        let one = with_strays(&[(2, 7), (3, 8)]);
        assert!(alike(&one, &with_strays(&[(4, 1), (4, 1)])));
        let zero = broken(&one, &with_strays(&[(2, 7), (0, 8)]));
        assert_eq!(zero, [Hypothesis::Zeros]);
        let own = broken(&one, &with_strays(&[(2, 7), (666_000_000, 8)]));
        assert_eq!(own, [Hypothesis::OwnRules]);
    }
}
