//! The cases that are made here, and files of 65,536 employers.

use super::{refused, Q1};
use crate::ack::outcome;
use crate::agree;
use crate::alike::is_identity;
use crate::big;
use crate::draft::*;
use crate::edits::Refusal;
use crate::format::Format;
use crate::gen::{Cases, Options};
use crate::meaning::{acknowledge, Entry, Outcome, Room};
use crate::rng::Rng;
use crate::tally::Tally;
use crate::walk;
use std::collections::HashSet;

/// The maker of each case knows what it gets, and the readings here agree.
#[test]
fn generated_cases() {
    let options = Options {
        small: true,
        ..Options::default()
    };
    let cases = Cases::new(3, 22_000, options);
    let promised = cases.promised();
    assert_eq!(promised.len(), 54);
    let mut tally = Tally::of(Format::Pfml);
    for (k, case) in cases.enumerate() {
        tally.count(&case, &outcome(&case.input));
        let agreed = agree::check(&case.input, &mut Rng::of(3, 60, k as u64));
        assert_eq!(agreed, Ok(()), "{}", case.name);
    }
    assert_eq!(tally.finish(promised), Ok(()));
}

/// Numbers with 9 in front come often, and with each end of what the IRS issues and does not.
#[test]
fn generated_itins() {
    let mut rng = Rng::of(3, 61, 0);
    let (mut fronts, mut ends) = (0, HashSet::new());
    for _ in 0..2_000 {
        let (issued, not_issued, any) = (
            random_itin(&mut rng),
            no_itin(&mut rng),
            random_id(&mut rng),
        );
        let passes = |id: u64| is_identity(format!("{id:09}").as_bytes());
        assert!(passes(issued) && !passes(not_issued) && passes(any));
        fronts += any / 100_000_000 / 9;
        ends.extend([issued, not_issued].map(|id| id / 10_000 % 100));
    }
    assert!(fronts > 300, "{fronts}");
    for digits in [49, 50, 65, 66, 69, 70, 88, 89, 90, 92, 93, 94, 99] {
        assert!(ends.contains(&digits), "{digits}");
    }
}

/// Long files, with tables exactly full and one more.
#[test]
fn long_files() {
    let mut cases = Vec::new();
    for k in 0..8 {
        let mut rng = Rng::of(4, 50, k);
        cases.push(big::full(&mut rng, k));
        cases.push(big::ids_overflow(&mut rng));
        cases.push(big::employers_overflow(&mut rng));
    }
    // All kinds of the first round, and of the later ones those that differ from round to round.
    for k in (0..40).filter(|k| *k < 10 || k % 2 == 1) {
        cases.push(big::long(&mut Rng::of(4, 51, k), k));
    }
    let mut tally = Tally::of(Format::Pfml);
    for case in cases {
        tally.count(&case, &outcome(&case.input));
    }
    assert_eq!(tally.finish(Vec::new()), Ok(()));
}

/// "Only the first 65,536 entries of the employer list are used."
#[test]
fn most_employers() {
    let employ = |fein| Employer {
        fein,
        employees: Vec::new(),
    };
    let employers: Vec<Employer> = (1..=65_537).map(employ).collect();
    let room = Room {
        ids: 0,
        employers: 70_000,
    };
    let exactly = tidy(Q1, Q1, &employers[..65_536]).file();
    let found = acknowledge(Q1, room, &exactly);
    assert!(matches!(found, Outcome::Accepted(_)));
    let more = tidy(Q1, Q1, &employers).file();
    let line_of_last_e = 2 * 65_536 + 2;
    assert_eq!(acknowledge(Q1, room, &more), refused(63, line_of_last_e, 6));
    let mut list = vec![Entry::default(); 70_000];
    let (_, answer) = walk::whole(Format::Pfml, Q1, &mut [], &mut list, &more);
    assert_eq!(answer, Some(Refusal::new(63, line_of_last_e, 6)));
}
