//! Cases on both sides of each boundary the paper draws: quarters, years, dates, prefixes, codes,
//! characters, sums, counts, line ends, the order of edits, and every short sequence of records. All
//! are small tidy files with one thing set. Most say what they mean to get.

mod addresses;
mod fields;
mod lines;
mod orders;
mod quarters;
mod totals;

pub use addresses::{EXTENSIONS, ZIPS};

use crate::breaks::record_for;
use crate::calendar::Quarter;
use crate::draft::*;
use crate::edits::Refusal;
use crate::gen::{Case, Meant};
use crate::rng::Rng;

const Q1: Quarter = Quarter::new(2026, 3);
const Q3: Quarter = Quarter::new(2026, 9);

/// All of them; the seed only fills the sequences of records.
pub fn all(seed: u64) -> Vec<Case> {
    let mut list = List::default();
    quarters::add(&mut list);
    fields::add(&mut list);
    addresses::add(&mut list);
    totals::add(&mut list);
    lines::add(&mut list);
    orders::add(&mut list);
    list.name("sequences");
    sequences(&mut list, seed);
    list.cases
}

/// The cases so far, and what those to come are named.
#[derive(Default)]
struct List {
    cases: Vec<Case>,
    name: &'static str,
}

impl List {
    fn name(&mut self, name: &'static str) {
        self.name = name;
    }

    fn add(&mut self, draft: &Draft, meant: Meant) {
        self.add_input(draft.input(), meant);
    }

    fn add_input(&mut self, input: Vec<u8>, meant: Meant) {
        let case = Case::new("bound", self.name, input, meant);
        self.cases.push(case);
    }

    /// A file that is accepted if it passes, and else refused as said.
    fn add_if(&mut self, draft: &Draft, passes: bool, refusal: Meant) {
        self.add(draft, if passes { Meant::Accepted } else { refusal });
    }

    /// A file that is refused as said, or accepted if no refusal is.
    fn add_unless(&mut self, draft: &Draft, refusal: Option<Meant>) {
        self.add(draft, refusal.unwrap_or(Meant::Accepted));
    }
}

fn refused(number: u8, line: u64, column: u64) -> Meant {
    Meant::Refused(Refusal::new(number, line, column))
}

/// Every sequence of up to two records, and of A and up to four after it; each record is as it
/// would have to be there.
fn sequences(list: &mut List, seed: u64) {
    let mut rng = Rng::of(seed, 99, 0);
    for (start, longest) in [(&b""[..], 2), (b"A", 4)] {
        for length in 1..=longest {
            for code in 0..5_usize.pow(length) {
                let behind = (0..length).map(|k| b"AESTF"[code / 5_usize.pow(k) % 5]);
                let letters: Vec<u8> = start.iter().copied().chain(behind).collect();
                list.add(&sequence(&mut rng, &letters), Meant::Unsaid);
            }
        }
    }
}

/// Records of these letters, with totals that are right; an E says 1 if an S comes next, mostly.
pub fn sequence(rng: &mut Rng, letters: &[u8]) -> Draft {
    let held = random_held(rng);
    let quarter = random_quarter(rng, held);
    let mut draft = Draft::new(held, quarter);
    for (place, letter) in letters.iter().enumerate() {
        let mut record = record_for(rng, &draft, place, *letter);
        if *letter == b'E' {
            let s_next = letters.get(place + 1) == Some(&b'S');
            let s_follow = s_next != rng.one_in(8);
            put(&mut record, 190, if s_follow { b"1" } else { b"0" });
        }
        draft.push(record);
    }
    draft.total();
    draft.set_ends(rng);
    draft
}
