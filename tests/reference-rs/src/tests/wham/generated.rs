//! The cases that are made here: the maker of each knows what it gets, and the two readings agree.

use super::*;
use crate::format::Format;
use crate::gen::Options;
use crate::rng::Rng;
use crate::tally::Tally;
use crate::wham::gen::{answers, Cases};
use crate::wham::valid::{valid, SMALL};
use crate::wham::{agree, big};

#[test]
fn generated_cases() {
    let cases = Cases::new(3, 22_000, Options::default());
    let promised = cases.promised();
    assert_eq!(promised.len(), answers().count() - 1);
    let mut tally = Tally::of(Format::WHAM_2024);
    for (k, case) in cases.enumerate() {
        tally.count(&case, &ack::outcome(EDITION, &case.input));
        let agreed = agree::check(EDITION, &case.input, &mut Rng::of(3, 61, k as u64));
        assert_eq!(agreed, Ok(()), "{}", case.name);
    }
    assert_eq!(tally.finish(promised), Ok(()));
}

/// Forty-five numbers: acceptance, 8 of lines and ends, 11 of places, 15 of fields, 8 of totals and
/// lists, 61 among them, 70 and 91.
#[test]
fn forty_five_answers() {
    assert_eq!(answers().count(), 1 + 8 + 11 + 15 + 8 + 2);
}

/// Two valid files are seldom of one shape.
#[test]
fn valid_files_differ() {
    let shape = |k| {
        let draft = valid(&mut Rng::of(3, 62, k), SMALL);
        let letters: Vec<u8> = draft.lines.iter().map(|line| line.text[0]).collect();
        letters
    };
    let shapes: std::collections::HashSet<Vec<u8>> = (0..1_000).map(shape).collect();
    assert!(shapes.len() > 500, "{}", shapes.len());
}

/// Long files, with the list exactly full and one more, and 100,000 S and R records and one more.
#[test]
fn long_files() {
    let mut tally = Tally::of(Format::WHAM_2024);
    for k in (0..40).filter(|k| *k < 10 || k % 2 == 1) {
        let case = big::long(&mut Rng::of(4, 51, k), k);
        tally.count(&case, &ack::outcome(EDITION, &case.input));
        let agreed = agree::check(EDITION, &case.input, &mut Rng::of(4, 62, k));
        assert_eq!(agreed, Ok(()), "{}", case.name);
    }
    assert_eq!(tally.finish(Vec::new()), Ok(()));
}

/// "employer list full: E records read are as many as its entries, or 65,536"
#[test]
fn most_employers() {
    let employers = vec![Employer::without_t(7); 65_537];
    let exactly = tidy(HELD, FILED, &employers[..65_536]).file();
    assert!(matches!(
        told_with(EDITION, HELD, 70_000, &exactly),
        Outcome::Accepted(_)
    ));
    let more = tidy(HELD, FILED, &employers).file();
    assert_eq!(
        told_with(EDITION, HELD, 70_000, &more),
        refused(63, 65_538, 6)
    );
    assert_eq!(
        told_with(EDITION, HELD, 65_536, &more),
        refused(63, 65_538, 6)
    );
}
