//! Hundreds of S records under one employer, with one of them changed: whatever a product does to
//! take such a run at once, the first broken edit is that of the lines one by one.

use crate::big;
use crate::calendar::Quarter;
use crate::draft::*;
use crate::gen::{Case, Meant};
use crate::layout::LENGTH;
use crate::rng::Rng;

const QUARTER: Quarter = Quarter::new(2026, 6);
const FEIN: u64 = 12_345_678;

/// Identity numbers that a hash of few low bits cannot tell apart.
fn alike_in_low_bits(rng: &mut Rng, count: usize) -> Vec<u64> {
    let start = rng.between(1, 1 << 16);
    let mut ids: Vec<u64> = (0..count as u64).map(|k| start + (k << 16)).collect();
    rng.shuffle(&mut ids);
    ids
}

fn employer(rng: &mut Rng, fein: u64) -> Employer {
    let count = rng.column(200, 700);
    let mut employees = big::employees(rng, count, count / 20);
    if rng.one_in(2) {
        let ids = alike_in_low_bits(rng, employees.len());
        for (employee, id) in employees.iter_mut().zip(ids) {
            employee.0 = id;
        }
    }
    Employer { fein, employees }
}

/// One change of an S record, most often one that breaks an edit.
fn change(rng: &mut Rng, draft: &mut Draft) -> &'static str {
    let places = draft.places(b'S');
    let (one, other) = (rng.pick(&places), rng.pick(&places));
    match rng.below(6) {
        0 => {
            let again = draft.lines[one].value(2, 10);
            draft.lines[other].put_number(2, 10, again);
            "an identity number again"
        }
        1 => {
            let column = rng.column(1, LENGTH);
            let byte = rng.below(256) as u8;
            draft.lines[one].put(column, &[byte]);
            "any byte"
        }
        2 => {
            let column = rng.column(1, LENGTH);
            let byte = printable(rng);
            draft.lines[one].put(column, &[byte]);
            "any character"
        }
        3 => {
            let (first, last) = rng.pick(&[(2, 10), (46, 47), (48, 51), (64, 77), (147, 155)]);
            let value = rng.below(10_u64.pow(9));
            draft.lines[one].put_number(first, last, value % 10_u64.pow((last - first + 1) as u32));
            "another number"
        }
        4 => {
            draft.lines[one].end = rng.pick(&[&b""[..], b"\n\n", b"\r", b" \n"]).to_vec();
            "another line end"
        }
        _ => {
            let text = draft.lines[other].text.clone();
            draft.lines[one].text = text;
            "a line again"
        }
    }
}

/// One or two employers; their S records as they are made, or one of them changed.
pub fn run(rng: &mut Rng) -> Case {
    let mut employers = vec![employer(rng, FEIN)];
    if rng.one_in(3) {
        let employees = employers[0].employees.clone();
        let fein = FEIN + 1;
        employers.push(Employer { fein, employees });
    }
    let mut draft = tidy(QUARTER, QUARTER, &employers);
    draft.set_ends(rng);
    if rng.one_in(4) {
        draft.use_small_letters(rng);
    }
    let name = match rng.one_in(5) {
        true => "as it is",
        false => change(rng, &mut draft),
    };
    if rng.one_in(2) {
        draft.total();
    }
    Case::new("run", name, draft.input(), Meant::Unsaid)
}
