//! Nothing that demand 3 asks of two files can be left out: for each hypothesis, pairs of inputs
//! that break it and no other, and get two answers.

use super::alike::{broken, Hypothesis};
use super::draft::*;
use super::layout::LENGTH;
use crate::calendar::Quarter;
use crate::edits::Refusal;
use crate::gen::{Case, Meant};
use crate::meaning::Outcome;
use crate::pairs::Twin;
use crate::pieces;
use crate::rng::Rng;

const QUARTER: Quarter = Quarter::new(2026, 6);

/// Two inputs, what they break, and what each gets.
pub struct Needed {
    hypothesis: Hypothesis,
    one: Case,
    other: Case,
}

impl Twin for Needed {
    fn cases(&self) -> [&Case; 2] {
        [&self.one, &self.other]
    }

    /// Tells if the pair breaks something else, or if it gets one answer.
    fn check(&self, found: &[Outcome; 2]) -> Result<(), String> {
        let broken = broken(&self.one.input, &self.other.input);
        if broken != [self.hypothesis] {
            return Err(format!("{}: breaks {broken:?}", self.one.name));
        }
        if found[0] == found[1] {
            return Err(format!("{}: one answer", self.one.name));
        }
        Ok(())
    }
}

/// All of them.
pub fn all() -> Vec<Needed> {
    let mut list = List::default();
    quarters(&mut list);
    bytes_outside(&mut list);
    bytes_between(&mut list);
    own_rules(&mut list);
    sums(&mut list, Hypothesis::Original, 202, 175);
    sums(&mut list, Hypothesis::Correct, 214, 213);
    list.0
}

#[derive(Default)]
struct List(Vec<Needed>);

/// A file and what it gets.
type Told = (Draft, Meant);

/// A line, counted from 1, a column, and what is written there.
type Change = (usize, usize, &'static [u8]);

impl List {
    fn add(&mut self, hypothesis: Hypothesis, name: &str, one: Told, other: Told) {
        let mut rng = Rng::of(1, 46, self.0.len() as u64);
        let mut case = |(draft, meant): Told| {
            let mut case = Case::new(group(hypothesis), name, draft.input(), meant);
            case.piece = pieces::size_for(LENGTH, &mut rng, &case.input);
            case
        };
        self.0.push(Needed {
            hypothesis,
            one: case(one),
            other: case(other),
        });
    }

    /// The accepted file, and the same with one line changed.
    fn line(&mut self, hypothesis: Hypothesis, change: Change, meant: Meant) {
        let name = format!("line {}, column {}", change.0, change.1);
        self.add(hypothesis, &name, accepted(), (changed(&[change]), meant));
    }
}

fn group(hypothesis: Hypothesis) -> &'static str {
    match hypothesis {
        Hypothesis::Quarter => "quarter",
        Hypothesis::Bytes => "bytes",
        Hypothesis::OwnRules => "own rules",
        Hypothesis::Original => "original",
        Hypothesis::Correct => "correct",
    }
}

fn refused(number: u8, line: u64, column: u64) -> Meant {
    Meant::Refused(Refusal::new(number, line, column))
}

/// A, E, S, S, R, T; E, S, S, T; F. The first S of the second employer has nothing but zeros.
fn office() -> Draft {
    let mut first = Employer::of(
        12_345_678,
        &[(1_020_003, 100_000, 123_456), (4_556_667, 50, 44)],
    );
    first.under.push(Under::R(100));
    let second = Employer::of(77, &[(0, 0, 0), (1_020_003, 17, 25)]);
    tidy(QUARTER, QUARTER, &[first, second])
}

fn accepted() -> Told {
    (office(), Meant::Accepted)
}

fn changed(changes: &[Change]) -> Draft {
    let mut draft = office();
    for (line, column, text) in changes {
        draft.lines[line - 1].put(*column, text);
    }
    draft
}

fn quarters(list: &mut List) {
    let headers: [(&[u8], Meant); 3] = [
        (b"202512\n", refused(39, 1, 2)),
        (b"202603\n", refused(41, 2, 188)),
        (b"202604\n", refused(70, 0, 0)),
    ];
    for (header, meant) in headers {
        let mut other = office();
        other.header = header.to_vec();
        list.add(
            Hypothesis::Quarter,
            "quarter held",
            accepted(),
            (other, meant),
        );
    }
}

/// One byte next to the hidden columns, in the same columns of other records, or elsewhere.
fn bytes_outside(list: &mut List) {
    let rows: [(Change, Meant); 11] = [
        ((3, 44, b"3"), refused(35, 3, 44)),
        ((3, 190, b"\x7F"), refused(3, 3, 190)),
        ((4, 215, b" "), refused(33, 4, 215)),
        ((4, 225, b"1"), refused(46, 4, 215)),
        ((1, 24, b" "), refused(33, 1, 24)),
        ((2, 10, b"X"), refused(30, 2, 10)),
        ((5, 9, b"0"), refused(91, 5, 2)),
        ((5, 27, b"X"), refused(30, 5, 27)),
        ((6, 8, b"1"), refused(55, 6, 2)),
        ((6, 188, b"1"), refused(57, 6, 175)),
        ((11, 55, b"1"), refused(60, 11, 41)),
    ];
    for (change, meant) in rows {
        list.line(Hypothesis::Bytes, change, meant);
    }
    // Two files that are accepted: of another employer, and without one of the S records of zeros.
    let other = (changed(&[(2, 7, b"2")]), Meant::Accepted);
    list.add(Hypothesis::Bytes, "FEIN of an employer", accepted(), other);
    let mut other = office();
    other.lines.remove(7);
    other.total();
    let other = (other, Meant::Accepted);
    list.add(Hypothesis::Bytes, "one S fewer", accepted(), other);
}

/// Line ends.
fn bytes_between(list: &mut List) {
    let mut other = office();
    other.lines[10].end.clear();
    let other = (other, refused(2, 11, 276));
    list.add(Hypothesis::Bytes, "no end behind F", accepted(), other);
    let mut other = office();
    // An S after the empty line would not be under the E any more.
    other.lines[5].end = b"\n\r".to_vec();
    let other = (other, refused(1, 7, 1));
    list.add(Hypothesis::Bytes, "two ends behind T", accepted(), other);
}

/// 30, 52, 32, 33, and 3 for a character that is not permitted. What is no number adds nothing, so
/// it stands in amounts of zero.
fn own_rules(list: &mut List) {
    let rows: [(Change, Meant); 17] = [
        ((3, 2, b"9"), refused(52, 3, 2)),
        ((4, 2, b"900700001"), refused(52, 4, 2)),
        ((8, 10, b"O"), refused(30, 8, 10)),
        ((9, 2, b" "), refused(30, 9, 2)),
        ((3, 11, b" "), refused(33, 3, 11)),
        ((4, 11, b"   "), refused(32, 4, 11)),
        ((4, 31, b"    "), refused(32, 4, 31)),
        ((8, 31, b" "), refused(33, 8, 31)),
        ((3, 30, b"\x7F"), refused(3, 3, 30)),
        ((8, 31, b"\xC9"), refused(3, 8, 31)),
        ((9, 43, b"\x1F"), refused(3, 9, 43)),
        ((8, 191, b"-"), refused(30, 8, 191)),
        ((8, 202, b"O"), refused(30, 8, 202)),
        ((8, 203, b" "), refused(30, 8, 203)),
        ((8, 214, b"."), refused(30, 8, 214)),
        ((8, 208, b"\x80"), refused(3, 8, 208)),
        ((8, 191, b"            "), refused(30, 8, 191)),
    ];
    for (change, meant) in rows {
        list.line(Hypothesis::OwnRules, change, meant);
    }
    // "in both files": both break the rule, each in a place of its own.
    let one = (changed(&[(3, 2, b"9")]), refused(52, 3, 2));
    let other = (changed(&[(4, 2, b"9")]), refused(52, 4, 2));
    list.add(Hypothesis::OwnRules, "two numbers", one, other);
}

/// Another sum of one of the two amounts under an E, with the same T: the amount ends in this
/// column, and T tells it from that one on.
fn sums(list: &mut List, hypothesis: Hypothesis, last: usize, told_at: u64) {
    let cents = |line: usize, text: &'static [u8]| (line, last, text);
    list.line(hypothesis, cents(8, b"1"), refused(57, 10, told_at));
    list.line(hypothesis, (4, last - 11, b"9"), refused(57, 6, told_at));
    // The sum of the file is the same.
    let other = changed(&[cents(3, b"1"), cents(8, b"9")]);
    let one = changed(&[cents(3, b"2"), cents(8, b"8")]);
    let meant = refused(57, 6, told_at);
    let fits = (office(), Meant::Accepted);
    list.add(hypothesis, "from one to another", fits, (other, meant));
    // Which employer's.
    let second = (changed(&[cents(9, b"1")]), refused(57, 10, told_at));
    list.add(hypothesis, "which employer", (one, meant), second);
}

#[cfg(test)]
mod tests {
    use super::*;
    use crate::format::Format;
    use crate::tally::Tally;
    use crate::wham::alike::HYPOTHESES;

    #[test]
    fn each_hypothesis_is_needed() {
        let mut tally = Tally::of(Format::WHAM_2024);
        let all = all();
        for pair in &all {
            let found = pair
                .cases()
                .map(|case| Format::WHAM_2024.outcome(&case.input));
            assert_eq!(pair.check(&found), Ok(()));
            tally.count(&pair.one, &found[0]);
            tally.count(&pair.other, &found[1]);
        }
        assert_eq!(tally.finish(Vec::new()), Ok(()));
        for hypothesis in HYPOTHESES {
            let pairs = all.iter().filter(|pair| pair.hypothesis == hypothesis);
            assert!(pairs.count() >= 3, "{hypothesis:?}");
        }
    }

    #[test]
    fn wrong_pairs_are_told() {
        let mut list = List::default();
        let small_letter = (changed(&[(3, 1, b"s")]), Meant::Accepted);
        list.add(Hypothesis::Bytes, "small letter", accepted(), small_letter);
        let other_name = (changed(&[(3, 31, b"M")]), Meant::Accepted);
        list.add(Hypothesis::Bytes, "alike", accepted(), other_name);
        let told = list.0.iter().map(|pair| {
            let found = pair
                .cases()
                .map(|case| Format::WHAM_2024.outcome(&case.input));
            pair.check(&found).unwrap_err()
        });
        let told: Vec<String> = told.collect();
        assert_eq!(told, ["small letter: one answer", "alike: breaks []"]);
    }
}
