//! What pairs were made, counted, so that a run that tries too little fails.

use crate::gen::Case;
use crate::lines::lines_of;
use crate::meaning::Outcome;
use crate::tally::{number_of, Numbers};

/// From so many pairs on, the run has to have tried enough: a sixth of them accepted, and refusals
/// of enough different numbers.
const ENOUGH_PAIRS: u64 = 3_000;
const ACCEPTED_ONE_IN: u64 = 6;

/// Six digits and LF.
const HEADER: usize = 7;

/// First and last column.
type Columns = (usize, usize);

/// What is counted of the pairs of a format.
pub struct Wanted {
    /// The length of a record.
    pub length: usize,
    /// What may differ on an S record: its name, and its columns.
    pub fields: &'static [(&'static str, &'static [Columns])],
    /// So many numbers of refusals are enough.
    pub numbers: usize,
}

pub const PFML: Wanted = Wanted {
    length: 290,
    fields: &[
        ("identity numbers", &[(2, 10)]),
        ("names", &[(11, 30), (31, 42)]),
        ("wages", &[(64, 77)]),
    ],
    numbers: 40,
};

pub struct Facts {
    wanted: &'static Wanted,
    numbers: Numbers,
    s_behind_the_refusal: u64,
    /// Of each field, how many pairs have something else there.
    others: Vec<u64>,
}

impl Facts {
    pub fn of(wanted: &'static Wanted) -> Facts {
        Facts {
            wanted,
            numbers: Numbers::default(),
            s_behind_the_refusal: 0,
            others: vec![0; wanted.fields.len()],
        }
    }

    /// Counts a pair and the answer to both of its inputs.
    pub fn count(&mut self, cases: [&Case; 2], found: &Outcome) {
        self.numbers.count(number_of(found));
        let [one, other] = cases.map(|case| employees(&case.input, self.wanted.length));
        if let Outcome::Refused(refusal) = found {
            let behind = one.iter().any(|(line, _)| *line > refusal.line);
            self.s_behind_the_refusal += u64::from(behind);
        }
        for (times, (_, columns)) in self.others.iter_mut().zip(self.wanted.fields) {
            let mut records = one.iter().zip(&other);
            *times += u64::from(records.any(|((_, one), (_, other))| differ(one, other, columns)));
        }
    }

    fn refusals(&self) -> usize {
        self.numbers.seen().filter(|number| *number != 0).count()
    }

    fn print(&self) {
        println!("{} pairs", self.numbers.all());
        println!("{} of them accepted", self.numbers.times(0));
        println!("{} numbers of refusals", self.refusals());
        println!("{} with an S behind the refusal", self.s_behind_the_refusal);
        for (times, (name, _)) in self.others.iter().zip(self.wanted.fields) {
            println!("{times} with other {name}");
        }
    }

    /// Prints the facts, and fails where many pairs have tried too little.
    pub fn finish(&self) -> Result<(), String> {
        self.print();
        let (pairs, accepted) = (self.numbers.all(), self.numbers.times(0));
        if pairs < ENOUGH_PAIRS {
            return Ok(());
        }
        if accepted * ACCEPTED_ONE_IN < pairs {
            return Err(format!("only {accepted} of {pairs} pairs are accepted"));
        }
        if self.refusals() < self.wanted.numbers {
            return Err(format!("only {} numbers of refusals", self.refusals()));
        }
        Ok(())
    }
}

/// The S records of an input, each with its line, counted from 1.
fn employees(input: &[u8], length: usize) -> Vec<(u64, &[u8])> {
    let file = &input[HEADER.min(input.len())..];
    let lines = (1..).zip(lines_of(file).map(|cut| cut.text));
    let is_s = |text: &[u8]| text.len() == length && text[0].to_ascii_uppercase() == b'S';
    lines.filter(|(_, text)| is_s(text)).collect()
}

/// Whether two records have something else in one of these fields.
fn differ(one: &[u8], other: &[u8], fields: &[Columns]) -> bool {
    let differs = |(first, last): &Columns| one[first - 1..*last] != other[first - 1..*last];
    fields.iter().any(differs)
}

#[cfg(test)]
mod tests {
    use super::*;
    use crate::calendar::Quarter;
    use crate::draft::example;
    use crate::edits::Refusal;
    use crate::gen::Meant;
    use crate::meaning::Accepted;

    const ACCEPTED: Outcome = Outcome::Accepted(Accepted {
        entries: Vec::new(),
        s_count: 0,
        e_count: 0,
        cents: 0,
    });

    fn refused(number: u8, line: u64) -> Outcome {
        Outcome::Refused(Refusal::new(number, line, 1))
    }

    /// The paper's example, whose S records are lines 3 and 4, with something put on line 4.
    fn pair_with(column: usize, text: &[u8]) -> [Case; 2] {
        let quarter = Quarter::new(2026, 3);
        let mut draft = example(quarter, quarter);
        let one = Case::new("valid", "", draft.input(), Meant::Unsaid);
        draft.lines[3].put(column, text);
        let other = Case::new("valid", "", draft.input(), Meant::Unsaid);
        [one, other]
    }

    #[test]
    fn what_differs() {
        let mut facts = Facts::of(&PFML);
        for (column, text) in [(10, b"1"), (42, b"A"), (30, b"A"), (77, b"9"), (78, b"9")] {
            let [one, other] = pair_with(column, text);
            facts.count([&one, &other], &ACCEPTED);
        }
        assert_eq!(facts.others, [1, 2, 1]);
    }

    #[test]
    fn what_is_behind_the_refusal() {
        let mut facts = Facts::of(&PFML);
        for line in [0, 3, 4, 5] {
            let [one, other] = pair_with(10, b"1");
            facts.count([&one, &other], &refused(40, line));
        }
        assert_eq!(facts.s_behind_the_refusal, 2);
    }

    /// So many pairs accepted, and as many refusals as make a whole, of so many numbers.
    fn finish_of(accepted: u64, all: u64, numbers: u64) -> Result<(), String> {
        let mut facts = Facts::of(&PFML);
        (0..accepted).for_each(|_| facts.numbers.count(0));
        (accepted..all).for_each(|k| facts.numbers.count((1 + k % numbers) as u8));
        facts.finish()
    }

    #[test]
    fn when_a_run_fails() {
        assert_eq!(finish_of(500, 3_000, 40), Ok(()));
        assert!(finish_of(499, 3_000, 40).is_err());
        assert!(finish_of(500, 3_000, 39).is_err());
        assert_eq!(finish_of(0, 2_999, 1), Ok(()));
    }
}
