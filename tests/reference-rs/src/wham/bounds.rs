//! Cases on both sides of each boundary that the rules draw: columns, characters, texts, codes,
//! quarters, dates, sums, counts, line ends, the order of edits, and every short sequence of records.
//! All are small tidy files with one thing set. Most say what they mean to get, typed by hand from
//! the rule list.

mod addresses;
mod columns;
mod digits;
mod lines;
mod orders;
mod quarters;
mod texts;
mod totals;

use super::breaks::record_for;
use super::draft::*;
use super::valid::{dress, random_quarter};
use crate::calendar::Quarter;
use crate::draft::{put, random_held};
use crate::edits::Refusal;
use crate::gen::{Case, Meant};
use crate::rng::Rng;

/// What the tidy files here hold and file; the rule list's own quarters.
const HELD: Quarter = Quarter::new(2026, 9);
const FILED: Quarter = Quarter::new(2024, 3);

/// The lines of `tidy_example`: A, E, S, S, R, T and F.
const A: usize = 0;
const E: usize = 1;
const S: usize = 2;
const R: usize = 4;
const T: usize = 5;
const F: usize = 6;

fn tidy_example() -> Draft {
    example(HELD, FILED)
}

/// All of them; the seed only fills the sequences of records and what stands in ignored columns.
pub fn all(seed: u64) -> Vec<Case> {
    let mut list = List::default();
    columns::add(&mut list, seed);
    digits::add(&mut list);
    texts::add(&mut list);
    addresses::add(&mut list);
    quarters::add(&mut list);
    totals::add(&mut list);
    lines::add(&mut list);
    orders::add(&mut list);
    list.name("sequences");
    sequences(&mut list, seed);
    list.cases
}

/// The cases so far, and what those to come are named.
#[derive(Default)]
struct List {
    cases: Vec<Case>,
    name: &'static str,
}

impl List {
    fn name(&mut self, name: &'static str) {
        self.name = name;
    }

    fn add(&mut self, draft: &Draft, meant: Meant) {
        self.add_input(draft.input(), meant);
    }

    fn add_input(&mut self, input: Vec<u8>, meant: Meant) {
        let case = Case::new("bound", self.name, input, meant);
        self.cases.push(case);
    }

    /// A file that is accepted if it passes, and else refused as said.
    fn add_if(&mut self, draft: &Draft, passes: bool, refusal: Meant) {
        self.add(draft, if passes { Meant::Accepted } else { refusal });
    }

    /// The tidy example with text written into a line from a column on.
    fn put(&mut self, place: usize, column: usize, text: &[u8], meant: Meant) {
        let mut draft = tidy_example();
        draft.lines[place].put(column, text);
        self.add(&draft, meant);
    }

    /// The same, refused at that line with this number, at this column.
    fn put_refused(&mut self, place: usize, column: usize, text: &[u8], told: (u8, usize)) {
        self.put(place, column, text, refused_at(told.0, place, told.1));
    }
}

fn refused(number: u8, line: u64, column: u64) -> Meant {
    Meant::Refused(Refusal::new(number, line, column))
}

/// Of the line at a place, counted from 0.
fn refused_at(number: u8, place: usize, column: usize) -> Meant {
    refused(number, place as u64 + 1, column as u64)
}

/// What a sequence is made of: the letters, of which E comes as one saying 1 and one saying 0.
const LETTERS: [u8; 7] = *b"AE0SRTF";

/// Every sequence of up to two records, of A and up to two after it, and of A, an E and up to three
/// after it; each record is as it would have to be there.
fn sequences(list: &mut List, seed: u64) {
    let mut rng = Rng::of(seed, 99, 1);
    for (start, longest) in [(&b""[..], 2), (b"A", 2), (b"AE", 3), (b"A0", 3)] {
        for length in 1..=longest {
            for code in 0..7_usize.pow(length) {
                let behind = (0..length).map(|k| LETTERS[code / 7_usize.pow(k) % 7]);
                let letters: Vec<u8> = start.iter().copied().chain(behind).collect();
                list.add(&sequence(&mut rng, &letters), Meant::Unsaid);
            }
        }
    }
}

/// Records of these letters, with totals that are right; `0` is an E that says 0.
pub fn sequence(rng: &mut Rng, letters: &[u8]) -> Draft {
    let held = random_held(rng);
    let quarter = random_quarter(rng, held);
    let mut draft = Draft::new(held, quarter);
    for (place, letter) in letters.iter().enumerate() {
        let is_e = matches!(letter, b'E' | b'0');
        let mut record = record_for(rng, &draft, place, if is_e { b'E' } else { *letter });
        if is_e {
            put(&mut record, 190, if *letter == b'0' { b"0" } else { b"1" });
        }
        draft.push(record);
    }
    draft.total();
    dress(rng, &mut draft);
    draft
}
