//! Nothing that demand 3 asks of two files can be left out: for each hypothesis, pairs of inputs that
//! break it and no other, and get two answers.

use crate::ack::ROOM;
use crate::alike::{self, Hypothesis};
use crate::calendar::Quarter;
use crate::draft::*;
use crate::edits::Refusal;
use crate::gen::{Case, Meant};
use crate::meaning::Outcome;
use crate::pairs::Twin;
use crate::pieces;
use crate::rng::Rng;

const QUARTER: Quarter = Quarter::new(2026, 3);
const FEIN: u64 = 12_345_678;

/// Two inputs, what they break, and what each gets.
pub struct Needed {
    hypothesis: Hypothesis,
    one: Case,
    other: Case,
}

impl Twin for Needed {
    fn cases(&self) -> [&Case; 2] {
        [&self.one, &self.other]
    }

    /// Tells if the pair breaks something else, or if it gets one answer.
    fn check(&self, found: &[Outcome; 2]) -> Result<(), String> {
        let broken = alike::broken(&self.one.input, &self.other.input);
        if broken != [self.hypothesis] {
            return Err(format!("{}: breaks {broken:?}", self.one.name));
        }
        if found[0] == found[1] {
            return Err(format!("{}: one answer", self.one.name));
        }
        Ok(())
    }
}

/// All of them.
pub fn all() -> Vec<Needed> {
    let mut list = List::default();
    quarters(&mut list);
    bytes_outside(&mut list);
    bytes_between(&mut list);
    identity_rules(&mut list);
    name_rules(&mut list);
    wages_rules(&mut list);
    zeros(&mut list);
    repeats(&mut list);
    wages(&mut list);
    list.0
}

#[derive(Default)]
struct List(Vec<Needed>);

/// A file and what it gets.
type Told = (Draft, Meant);

impl List {
    fn add(&mut self, hypothesis: Hypothesis, name: &str, one: Told, other: Told) {
        let mut rng = Rng::of(1, 41, self.0.len() as u64);
        let mut case = |(draft, meant): Told| {
            let mut case = Case::new(group(hypothesis), name, draft.input(), meant);
            case.piece = pieces::size(&mut rng, &case.input);
            case
        };
        self.0.push(Needed {
            hypothesis,
            one: case(one),
            other: case(other),
        });
    }

    /// The accepted file, and the same with one line changed.
    fn line(&mut self, hypothesis: Hypothesis, name: &str, change: Change, meant: Meant) {
        let other = changed(&[change]);
        self.add(
            hypothesis,
            name,
            (office(), Meant::Accepted),
            (other, meant),
        );
    }
}

fn group(hypothesis: Hypothesis) -> &'static str {
    match hypothesis {
        Hypothesis::Quarter => "quarter",
        Hypothesis::Bytes => "bytes",
        Hypothesis::OwnRules => "own rules",
        Hypothesis::Zeros => "zeros",
        Hypothesis::Repeats => "repeats",
        Hypothesis::Wages => "wages",
    }
}

fn refused(number: u8, line: u64, column: u64) -> Meant {
    Meant::Refused(Refusal::new(number, line, column))
}

/// The line (counted from 1), the column, and what to write there.
type Change<'a> = (usize, usize, &'a [u8]);

/// Two employers with two employees each: A, E, S, S, T, E, S, S, T, F. One employee has applied for
/// a number and has no wages.
fn office() -> Draft {
    with_employees(&[
        &[(111_223_333, 123_456), (222_334_444, 44)],
        &[(0, 0), (333_445_555, 7)],
    ])
}

fn changed(changes: &[Change]) -> Draft {
    let mut draft = office();
    for (line, column, text) in changes {
        draft.lines[line - 1].put(*column, text);
    }
    draft
}

/// A tidy file of employers with these identity numbers and wages.
fn with_employees(employers: &[&[(u64, u64)]]) -> Draft {
    let employ = |(fein, employees): (u64, &&[(u64, u64)])| Employer {
        fein,
        employees: employees.to_vec(),
    };
    let list: Vec<Employer> = (FEIN..).zip(employers).map(employ).collect();
    tidy(QUARTER, QUARTER, &list)
}

/// A tidy file of one employer whose employees have these numbers, and no wages.
fn with_ids(ids: &[u64]) -> Draft {
    let employees: Vec<(u64, u64)> = ids.iter().map(|id| (*id, 0)).collect();
    with_employees(&[&employees])
}

/// One employer with a full id table, and one employee more with this number.
fn full_and(id: u64) -> Draft {
    let ids: Vec<u64> = (1..=ROOM.ids as u64).chain([id]).collect();
    with_ids(&ids)
}

fn quarters(list: &mut List) {
    let headers: [(&[u8], Meant); 3] = [
        (b"202509\n", refused(39, 1, 2)),
        (b"202512\n", refused(65, 2, 282)),
        (b"202604\n", refused(70, 0, 0)),
    ];
    for (header, meant) in headers {
        let mut other = office();
        other.header = header.to_vec();
        let one = (office(), Meant::Accepted);
        list.add(Hypothesis::Quarter, "quarter held", one, (other, meant));
    }
}

/// One byte next to the fields of employees, in the same columns of other records, or elsewhere.
fn bytes_outside(list: &mut List) {
    let rows: [(Change, Meant); 8] = [
        ((3, 43, b"X"), refused(31, 3, 43)),
        ((3, 63, b"0"), refused(31, 3, 63)),
        ((3, 78, b"0"), refused(31, 3, 78)),
        ((4, 155, b"0"), refused(46, 4, 147)),
        ((1, 24, b" "), refused(33, 1, 24)),
        ((2, 10, b"X"), refused(30, 2, 10)),
        ((5, 8, b"1"), refused(55, 5, 2)),
        ((5, 40, b"1"), refused(57, 5, 27)),
    ];
    for (change, meant) in rows {
        let (line, column, _) = change;
        let name = format!("byte at line {line}, column {column}");
        list.line(Hypothesis::Bytes, &name, change, meant);
    }
    // Two files that are accepted, of another employer.
    let other = changed(&[(2, 7, b"2"), (3, 148, b"2"), (4, 148, b"2"), (5, 14, b"2")]);
    let (one, other) = ((office(), Meant::Accepted), (other, Meant::Accepted));
    list.add(Hypothesis::Bytes, "FEIN of an employer", one, other);
}

/// Line ends.
fn bytes_between(list: &mut List) {
    let one = || (office(), Meant::Accepted);
    let mut other = office();
    other.lines[9].end.clear();
    let other = (other, refused(2, 10, 291));
    list.add(Hypothesis::Bytes, "no end behind F", one(), other);
    let mut other = office();
    // An S after the empty line would not be under the E any more.
    other.lines[4].end = b"\n\r".to_vec();
    let other = (other, refused(1, 6, 1));
    list.add(Hypothesis::Bytes, "two ends behind T", one(), other);
}

/// 30 and 52. What is no number reads as zero, so the letter stands in a number that is.
fn identity_rules(list: &mut List) {
    let rows: [(Change, Meant); 4] = [
        ((3, 2, b"666"), refused(52, 3, 2)),
        ((4, 2, b"9"), refused(52, 4, 2)),
        ((7, 10, b"O"), refused(30, 7, 10)),
        ((7, 2, b" "), refused(30, 7, 2)),
    ];
    for (change, meant) in rows {
        list.line(Hypothesis::OwnRules, "identity number", change, meant);
    }
}

/// 54, 32, 33, and 3 for a character that is not permitted at all.
fn name_rules(list: &mut List) {
    let rows: [(Change, Meant); 6] = [
        ((3, 12, b"2"), refused(54, 3, 12)),
        ((8, 42, b"."), refused(54, 8, 42)),
        ((4, 31, b"            "), refused(32, 4, 31)),
        ((4, 11, b" "), refused(33, 4, 11)),
        ((3, 30, b"\x7F"), refused(3, 3, 30)),
        ((8, 31, b"\xC9"), refused(3, 8, 31)),
    ];
    for (change, meant) in rows {
        list.line(Hypothesis::OwnRules, "name", change, meant);
    }
    // "in both files": both break the rule, each in a column of its own.
    let one = (changed(&[(3, 12, b"2")]), refused(54, 3, 12));
    let other = (changed(&[(3, 13, b"2")]), refused(54, 3, 13));
    list.add(Hypothesis::OwnRules, "two names", one, other);
}

/// 30, in wages of zero for the same reason.
fn wages_rules(list: &mut List) {
    let rows: [(Change, Meant); 3] = [
        ((7, 77, b"O"), refused(30, 7, 77)),
        ((7, 64, b" "), refused(30, 7, 64)),
        ((7, 70, b"-"), refused(30, 7, 70)),
    ];
    for (change, meant) in rows {
        list.line(Hypothesis::OwnRules, "wages", change, meant);
    }
}

/// Numbers that repeat in the same places, and are zero in others: "000000000 means applied for and
/// may repeat", and takes no room.
fn zeros(list: &mut List) {
    let mut add = |name, one, other| list.add(Hypothesis::Zeros, name, one, other);
    add(
        "zero twice, a number twice",
        (with_ids(&[0, 0]), Meant::Accepted),
        (with_ids(&[7, 7]), refused(53, 4, 2)),
    );
    add(
        "zero thrice, a number thrice",
        (with_ids(&[5, 7, 7, 7]), refused(53, 5, 2)),
        (with_ids(&[5, 0, 0, 0]), Meant::Accepted),
    );
    add(
        "which pair is zero",
        (with_ids(&[0, 0, 7, 7]), refused(53, 6, 2)),
        (with_ids(&[7, 7, 0, 0]), refused(53, 4, 2)),
    );
    let line = ROOM.ids as u64 + 3;
    add(
        "zero behind a full table",
        (full_and(0), Meant::Accepted),
        (full_and(line), refused(62, line, 2)),
    );
}

fn repeats(list: &mut List) {
    let mut add = |name, one, other| list.add(Hypothesis::Repeats, name, one, other);
    add(
        "a number twice",
        (with_ids(&[7, 8]), Meant::Accepted),
        (with_ids(&[7, 7]), refused(53, 4, 2)),
    );
    add(
        "a number twice, behind zeros",
        (with_ids(&[8, 0, 7, 0, 8]), refused(53, 7, 2)),
        (with_ids(&[8, 0, 7, 0, 9]), Meant::Accepted),
    );
    add(
        "where it repeats",
        (with_ids(&[7, 8, 7]), refused(53, 5, 2)),
        (with_ids(&[7, 7, 8]), refused(53, 4, 2)),
    );
    let line = ROOM.ids as u64 + 3;
    add(
        "a number twice behind a full table",
        (full_and(1), refused(53, line, 2)),
        (full_and(line), refused(62, line, 2)),
    );
}

/// Another total under an E, with the same T.
fn wages(list: &mut List) {
    list.line(
        Hypothesis::Wages,
        "one cent more",
        (4, 77, b"5"),
        refused(57, 5, 27),
    );
    let accepted = || (office(), Meant::Accepted);
    // The total of the file is the same.
    let other = changed(&[(4, 77, b"3"), (8, 77, b"8")]);
    let other = (other, refused(57, 5, 27));
    list.add(Hypothesis::Wages, "from one to another", accepted(), other);
    // 14 digits of the total are the same.
    let other = changed(&[(3, 64, b"99999999999999"), (4, 64, b"00000000123501")]);
    let other = (other, refused(57, 5, 27));
    list.add(Hypothesis::Wages, "10^14 more", accepted(), other);
    let one = (changed(&[(4, 77, b"5")]), refused(57, 5, 27));
    let other = (changed(&[(8, 77, b"8")]), refused(57, 9, 27));
    list.add(Hypothesis::Wages, "which employer", one, other);
}

#[cfg(test)]
mod tests {
    use super::*;
    use crate::ack::outcome;
    use crate::alike::HYPOTHESES;
    use crate::format::Format;
    use crate::tally::Tally;

    #[test]
    fn each_hypothesis_is_needed() {
        let mut tally = Tally::of(Format::Pfml);
        let all = all();
        for pair in &all {
            let found = [outcome(&pair.one.input), outcome(&pair.other.input)];
            assert_eq!(pair.check(&found), Ok(()));
            tally.count(&pair.one, &found[0]);
            tally.count(&pair.other, &found[1]);
        }
        assert_eq!(tally.finish(Vec::new()), Ok(()));
        for hypothesis in HYPOTHESES {
            let pairs = all.iter().filter(|pair| pair.hypothesis == hypothesis);
            assert!(pairs.count() >= 2, "{hypothesis:?}");
        }
    }

    #[test]
    fn wrong_pairs_are_told() {
        let mut list = List::default();
        let one = || (office(), Meant::Accepted);
        let small_letter = (changed(&[(3, 1, b"s")]), Meant::Accepted);
        list.add(Hypothesis::Bytes, "small letter", one(), small_letter);
        let other_name = (changed(&[(3, 31, b"M")]), Meant::Accepted);
        list.add(Hypothesis::Bytes, "alike", one(), other_name);
        let told = list.0.iter().map(|pair| {
            let found = [outcome(&pair.one.input), outcome(&pair.other.input)];
            pair.check(&found).unwrap_err()
        });
        let told: Vec<String> = told.collect();
        assert_eq!(told, ["small letter: one answer", "alike: breaks []"]);
    }
}
