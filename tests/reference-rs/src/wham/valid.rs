//! Random files that break no edit, as strangers would write them: each in a style of its own, with
//! records in many orders.

use super::draft::*;
use super::layout::LENGTH;
use crate::calendar::Quarter;
use crate::draft::{
    not_blank, printable, put, put_number, random_address, random_digits, random_held, random_text,
    Line,
};
use crate::rng::Rng;

/// The size of a file.
#[derive(Clone, Copy)]
pub struct Size {
    pub employers: u64,
    /// S records under one E.
    pub employees: u64,
    /// R records under one E.
    pub deposits: u64,
}

pub const SMALL: Size = Size {
    employers: 3,
    employees: 3,
    deposits: 2,
};

/// What stands in columns that are ignored.
#[derive(Clone, Copy)]
enum Fill {
    Blanks,
    Zeros,
    Tildes,
    /// A character here and there.
    Sparse,
    Anything,
    /// The digits, words and signs of another layout.
    OtherLayout,
}

const FILLS: [Fill; 8] = [
    Fill::Blanks,
    Fill::Blanks,
    Fill::Blanks,
    Fill::Zeros,
    Fill::Tildes,
    Fill::Sparse,
    Fill::Anything,
    Fill::OtherLayout,
];

/// How letters are written.
#[derive(Clone, Copy)]
enum Case {
    Capitals,
    Small,
    Mixed,
    /// A capital in front of each word, the record's letter among them.
    Title,
}

const CASES: [Case; 6] = [
    Case::Capitals,
    Case::Capitals,
    Case::Small,
    Case::Mixed,
    Case::Mixed,
    Case::Title,
];

pub fn valid(rng: &mut Rng, size: Size) -> Draft {
    let held = random_held(rng);
    let quarter = random_quarter(rng, held);
    valid_in(rng, held, quarter, size)
}

pub fn valid_in(rng: &mut Rng, held: Quarter, quarter: Quarter, size: Size) -> Draft {
    let mut draft = Draft::new(held, quarter);
    draft.push(random_record_a(rng, quarter.year));
    let mut feins: Vec<u64> = Vec::new();
    for _ in 0..rng.between(1, size.employers) {
        let fein = match rng.one_in(5) && !feins.is_empty() {
            true => rng.pick(&feins),
            false => random_fein(rng),
        };
        feins.push(fein);
        random_return(rng, &mut draft, fein, size);
    }
    draft.push(record_f(0, 0, 0));
    draft.total();
    dress(rng, &mut draft);
    draft
}

/// Ends, ignored columns and letters, in some style.
pub fn dress(rng: &mut Rng, draft: &mut Draft) {
    draft.set_ends(rng);
    let (fill, case) = (rng.pick(&FILLS), rng.pick(&CASES));
    for line in &mut draft.lines {
        fill_ignored(rng, line, fill);
        write_letters(rng, line, case);
    }
}

/// An E and what belongs to it.
fn random_return(rng: &mut Rng, draft: &mut Draft, fein: u64, size: Size) {
    let (quarter, account) = (draft.quarter, random_account(rng));
    let says_1 = !rng.one_in(3);
    draft.push(random_record_e(rng, quarter, fein, says_1, &account));
    let employees = if says_1 {
        rng.between(1, size.employees)
    } else {
        0
    };
    let deposits = if rng.one_in(2) {
        rng.between(0, size.deposits)
    } else {
        0
    };
    let mut letters = [
        vec![b'S'; employees as usize],
        vec![b'R'; deposits as usize],
    ]
    .concat();
    rng.shuffle(&mut letters);
    let mut ids: Vec<u64> = Vec::new();
    for letter in letters {
        let record = match letter {
            b'S' => {
                let id = match rng.one_in(4) && !ids.is_empty() {
                    true => rng.pick(&ids),
                    false => random_id(rng),
                };
                ids.push(id);
                random_record_s(rng, quarter, id, &account)
            }
            _ => random_record_r(rng, quarter),
        };
        draft.push(record);
    }
    if says_1 || rng.one_in(2) {
        let correct = correct_under(draft);
        draft.push(random_record_t(rng, correct));
    }
}

/// The sum of S 203-214 since the last E.
fn correct_under(draft: &Draft) -> u64 {
    let lines = draft.lines.iter().rev();
    let under = lines.take_while(|line| line.letter() != b'E');
    let s = under.filter(|line| line.letter() == b'S');
    s.map(|line| line.value(203, 214)).sum()
}

// Random parts.

/// A quarter up to the one held: there is no first one.
pub fn random_quarter(rng: &mut Rng, held: Quarter) -> Quarter {
    let month = rng.pick(&[3, 6, 9, 12]);
    let year = match rng.below(8) {
        0..=2 => return held,
        3 => held.year - 1,
        4 => rng.pick(&[0, 1, 9, 99, 999, 1900, 2023, 2024]),
        5 => rng.below(held.year),
        _ => held.year - rng.below(3),
    };
    let quarter = Quarter::new(year, month);
    if quarter > held {
        held
    } else {
        quarter
    }
}

/// Any nine digits are a FEIN: zeros and those with 69 in front too.
pub fn random_fein(rng: &mut Rng) -> u64 {
    match rng.below(8) {
        0 => 0,
        1 => 690_000_000 + rng.below(10_000_000),
        2 => rng.below(1_000),
        3 => 999_999_999 - rng.below(1_000),
        _ => rng.below(1_000_000_000),
    }
}

/// An identity number that may be filed: any that does not begin with 9.
pub fn random_id(rng: &mut Rng) -> u64 {
    match rng.below(8) {
        0 => 0,
        1 => 666_000_000 + rng.below(1_000_000),
        2 => 899_999_999 - rng.below(100),
        3 => rng.pick(&[
            1,
            111_111_111,
            333_333_333,
            123_456_789,
            99_999_999,
            90_000_000,
        ]),
        _ => rng.below(900_000_000),
    }
}

/// An amount of an S record.
pub fn random_amount(rng: &mut Rng) -> u64 {
    match rng.below(10) {
        0 | 1 => 0,
        2 => rng.below(100),
        3 => MOST_OF_S - rng.below(3),
        4 => rng.below(MOST_OF_S),
        _ => rng.below(1_000_000),
    }
}

/// Eleven columns: digits, the eight-digit form, letters, or any text; blanks may stand within.
pub fn random_account(rng: &mut Rng) -> Vec<u8> {
    match rng.below(6) {
        0 | 1 => random_digits(rng, 11),
        2 | 3 => {
            let digits = random_digits(rng, 8);
            [&digits[..4], b"-", &digits[4..], b"  "].concat()
        }
        4 => random_text(rng, 11),
        _ => {
            let mut text = random_text(rng, 11);
            text[1 + rng.index(10)] = b' ';
            text[10] = not_blank(rng);
            text
        }
    }
}

pub fn random_record_a(rng: &mut Rng, year: u64) -> Vec<u8> {
    let address = random_address(rng);
    let mut a = record_a(year, random_fein(rng), &address);
    for (first, last) in [(24, 73), (74, 113), (114, 138), (164, 193)] {
        put(&mut a, first, &random_text(rng, last + 1 - first));
    }
    put(&mut a, 194, &random_digits(rng, 10));
    if rng.one_in(2) {
        put(&mut a, 204, &random_text(rng, 4));
    }
    a
}

pub fn random_record_e(
    rng: &mut Rng,
    quarter: Quarter,
    fein: u64,
    says_1: bool,
    account: &[u8],
) -> Vec<u8> {
    let address = random_address(rng);
    let mut e = record_e(quarter, fein, says_1, account);
    for (first, last) in [(24, 73), (74, 113), (114, 138)] {
        put(&mut e, first, &random_text(rng, last + 1 - first));
    }
    put(&mut e, 139, &address.code);
    put(&mut e, 149, &address.extension);
    put(&mut e, 154, &address.zip);
    put(&mut e, 225, &random_digits(rng, 4));
    put_processor(rng, &mut e);
    e
}

/// A payroll processor and its licence, a licence alone, or neither.
fn put_processor(rng: &mut Rng, e: &mut [u8]) {
    let kind = rng.below(4);
    if kind == 0 {
        let ein = rng.pick(&[1, 690_000_001, 999_999_999, 100_000_000]);
        put_number(e, 209, 217, ein);
    }
    if kind <= 1 {
        put(e, 218, &random_text(rng, 7));
    }
}

pub fn random_record_s(rng: &mut Rng, quarter: Quarter, id: u64, account: &[u8]) -> Vec<u8> {
    let amounts = (random_amount(rng), random_amount(rng));
    let mut s = record_s(quarter, id, amounts, account);
    put(&mut s, 11, &random_text(rng, 20));
    put(&mut s, 31, &random_text(rng, 12));
    put(&mut s, 43, &[printable(rng)]);
    s
}

pub fn random_record_r(rng: &mut Rng, quarter: Quarter) -> Vec<u8> {
    let any = rng.below(1_000_000_000);
    record_r(quarter, rng.pick(&[0, 1, any, any, 999_999_999]))
}

/// A T whose totals are still to be written; payments of more, as much, or less than the S records
/// come to, and at times a hyphen, which stays where that makes nothing of it.
pub fn random_record_t(rng: &mut Rng, correct: u64) -> Vec<u8> {
    let most = MOST_OF_PAYMENTS;
    let any = rng.below(most);
    let near = correct.saturating_sub(rng.below(3)) + rng.below(3);
    let payments = rng.pick(&[0, any, correct, correct, near, most]).min(most);
    let mut t = record_t(0, payments, (0, 0));
    if rng.one_in(2) {
        put(&mut t, 123, b"-");
    } else {
        put(&mut t, 123, b"0");
    }
    t
}

// Styles.

/// Ignored columns in some style; a line that is no record has none.
fn fill_ignored(rng: &mut Rng, line: &mut Line, fill: Fill) {
    if line.text.len() != LENGTH {
        return;
    }
    let letter = line.letter();
    for (_, first, last) in IGNORED.iter().filter(|(own, _, _)| *own == letter) {
        for column in *first..=*last {
            let character = match fill {
                Fill::Blanks => b' ',
                Fill::Zeros => b'0',
                Fill::Tildes => b'~',
                Fill::Sparse if !rng.one_in(9) => b' ',
                Fill::Sparse | Fill::Anything => printable(rng),
                Fill::OtherLayout => rng.pick(b"0123456789  AESTFRB-.PFML"),
            };
            line.put(column, &[character]);
        }
    }
}

fn write_letters(rng: &mut Rng, line: &mut Line, case: Case) {
    let mut behind_letter = false;
    for c in &mut line.text {
        let small = match case {
            Case::Capitals => false,
            Case::Small => true,
            Case::Mixed => rng.one_in(2),
            Case::Title => behind_letter,
        };
        behind_letter = c.is_ascii_alphabetic();
        if small {
            *c = c.to_ascii_lowercase();
        }
    }
}
