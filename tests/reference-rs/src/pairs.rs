//! Pairs of inputs that are alike but for the employees, so that both must get the same answer
//! (`alike` says when they are).
//!
//! The first of a pair is a case (`firsts`) that has an S record, wherever it stands; fields of
//! employees that break their own rules are mended. The second is the same file with other people in
//! it (`people`).

mod facts;
mod firsts;
mod people;

pub use facts::{Facts, Wanted, PFML};

use crate::ack;
use crate::alike::alike;
use crate::gen::{Case, Meant, Options};
use crate::meaning::{acknowledge, Outcome, Room};
use crate::pieces;
use crate::rng::Rng;
use firsts::Firsts;
use people::Roster;

/// Two inputs that are made for the answers to be compared.
pub trait Twin {
    fn cases(&self) -> [&Case; 2];

    /// Tells what is wrong with the two, or with the answers found for them.
    fn check(&self, found: &[Outcome; 2]) -> Result<(), String>;
}

pub struct Pair {
    pub one: Case,
    pub other: Case,
}

/// One file in so many has people with the same number put under an employer; few of the cases have.
const REPEATED_ONE_IN: u64 = 6;

/// So many pairs. The k-th does not depend on how many there are.
pub fn make(seed: u64, count: u64, options: Options) -> impl Iterator<Item = Pair> {
    let firsts = Firsts::new(seed, options).enumerate();
    let pairs =
        firsts.filter_map(move |(k, case)| pair_from(&mut Rng::of(seed, 40, k as u64), case));
    pairs.take(count as usize)
}

/// The pair whose first file is this case; none if it has no S record.
fn pair_from(rng: &mut Rng, case: Case) -> Option<Pair> {
    let roster = Roster::of(&case.input);
    if roster.is_empty() {
        return None;
    }
    let mut one = case.input.clone();
    roster.mend(rng, &mut one);
    if rng.one_in(REPEATED_ONE_IN) {
        roster.repeat_some(rng, &mut one);
    }
    let mut other = one.clone();
    while other == one {
        roster.renumber(rng, &mut other);
        roster.rename(rng, &mut other);
        roster.move_wages(rng, &mut other);
    }
    // What the maker of the case meant it to get, both have to get, unless its people were changed.
    let meant = match one == case.input {
        true => case.meant,
        false => Meant::Unsaid,
    };
    let mut with_input = |input: Vec<u8>| Case {
        piece: pieces::size(rng, &input),
        input,
        meant,
        ..case.clone()
    };
    Some(Pair {
        one: with_input(one),
        other: with_input(other),
    })
}

/// Demand 3 speaks of every length of the lent tables: some that are full sooner than the program's.
const SHORT_TABLES: [(usize, usize); 4] = [(0, 9), (1, 1), (2, 9), (9, 1)];

impl Twin for Pair {
    fn cases(&self) -> [&Case; 2] {
        [&self.one, &self.other]
    }

    fn check(&self, found: &[Outcome; 2]) -> Result<(), String> {
        let wrong = |what: &str| Err(format!("{what}: {} ({})", self.one.group, self.one.name));
        if self.one.input == self.other.input {
            return wrong("a pair of the same input twice");
        }
        if !alike(&self.one.input, &self.other.input) {
            return wrong("a pair that is not alike");
        }
        if found[0] != found[1] {
            return wrong("a pair with two answers");
        }
        for (ids, employers) in SHORT_TABLES {
            let room = Room { ids, employers };
            if with_tables(&self.one, room) != with_tables(&self.other, room) {
                return wrong("a pair with two answers under short tables");
            }
        }
        Ok(())
    }
}

/// The answer under tables of other lengths; none if the header has no quarter.
fn with_tables(case: &Case, room: Room) -> Option<Outcome> {
    let (held, file) = ack::header(&case.input)?;
    Some(acknowledge(held, room, file))
}

#[cfg(test)]
mod tests {
    use super::*;
    use crate::alike::{value, IDENTITY};
    use std::collections::HashSet;

    const SMALL: Options = Options {
        small: true,
        all_bytes: false,
        long: false,
    };

    fn answers(pair: &Pair) -> [Outcome; 2] {
        [
            ack::outcome(&pair.one.input),
            ack::outcome(&pair.other.input),
        ]
    }

    #[test]
    fn pairs_are_alike_and_get_one_answer() {
        let mut facts = Facts::of(&PFML);
        for pair in make(3, 3_000, SMALL) {
            let found = answers(&pair);
            assert_eq!(pair.check(&found), Ok(()));
            facts.count(pair.cases(), &found[0]);
        }
        assert_eq!(facts.finish(), Ok(()));
    }

    #[test]
    fn pairs_are_the_same_again() {
        let take = |count| -> Vec<(Vec<u8>, Vec<u8>, usize, usize)> {
            let pairs = make(8, count, SMALL).take(50);
            let told = |p: Pair| (p.one.input, p.other.input, p.one.piece, p.other.piece);
            pairs.map(told).collect()
        };
        assert_eq!(take(50), take(3_000));
    }

    /// The identity numbers under each employer.
    fn ids_of(input: &[u8]) -> Vec<Vec<u64>> {
        let id = |at: &usize| value(&input[*at..], IDENTITY);
        let teams = Roster::of(input).teams;
        teams.iter().map(|t| t.iter().map(id).collect()).collect()
    }

    /// Of each number in a list, where it stands first.
    fn first_places(ids: &[u64]) -> Vec<Option<usize>> {
        let first = |id| ids.iter().position(|earlier| earlier == id);
        ids.iter().map(first).collect()
    }

    /// How many of 2,000 pairs have something to tell that differs from one file to the other.
    fn count_differing<T: PartialEq>(seed: u64, told: impl Fn(Vec<Vec<u64>>) -> T) -> usize {
        let told = |case: &Case| told(ids_of(&case.input));
        let differs = |pair: &Pair| told(&pair.one) != told(&pair.other);
        make(seed, 2_000, SMALL).filter(differs).count()
    }

    /// "repeat under an employer in the same places" does not say which number is repeated.
    #[test]
    fn another_number_may_be_the_repeated_one() {
        let told = |teams: Vec<Vec<u64>>| -> Vec<_> {
            teams.iter().map(|team| first_places(team)).collect()
        };
        let count = count_differing(4, told);
        assert!(count >= 50, "{count}");
    }

    /// Nothing is said of who works for two employers.
    #[test]
    fn people_come_to_other_employers() {
        let without_repeats = |mut team: Vec<u64>| {
            let mut seen = HashSet::new();
            team.retain(|id| seen.insert(*id));
            team
        };
        let told = |teams: Vec<Vec<u64>>| {
            let people: Vec<u64> = teams.into_iter().flat_map(without_repeats).collect();
            first_places(&people)
        };
        let count = count_differing(5, told);
        assert!(count >= 200, "{count}");
    }

    #[test]
    fn wrong_pairs_are_told() {
        let pair = make(6, 1, SMALL).next().unwrap();
        let found = answers(&pair);
        let Pair { one, other } = pair;
        let two = |one: &Case, other: &Case| Pair {
            one: one.clone(),
            other: other.clone(),
        };
        let told = |pair: Pair, found: &[Outcome; 2]| pair.check(found).unwrap_err();
        assert!(told(two(&one, &one), &found).starts_with("a pair of the same input twice"));
        let mut longer = other.clone();
        longer.input.push(b' ');
        assert!(told(two(&one, &longer), &found).starts_with("a pair that is not alike"));
        let another = ack::outcome(b"");
        assert_ne!(found[0], another);
        let found = [found[0].clone(), another];
        assert!(told(two(&one, &other), &found).starts_with("a pair with two answers"));
    }
}
