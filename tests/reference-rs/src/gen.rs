//! The cases: which kinds there are, and in what mixture.
//!
//! A seed and a count give a fixed list. The k-th case of a kind depends on the seed and k alone.

use crate::big;
use crate::bounds;
use crate::breaks::{self, Break};
use crate::calendar::Quarter;
use crate::draft::*;
use crate::edits::Refusal;
use crate::mutations::{mutated, odd_ends};
use crate::pieces;
use crate::rng::Rng;
use crate::runs;
use crate::tally::answers;

/// What the maker of a case means it to get.
#[derive(Clone, Copy, Debug, PartialEq, Eq)]
pub enum Meant {
    Unsaid,
    Accepted,
    Refused(Refusal),
}

/// One input.
#[derive(Clone, Debug)]
pub struct Case {
    pub group: &'static str,
    /// What was done, for people.
    pub name: String,
    pub input: Vec<u8>,
    /// The size of the reads that the product is to make.
    pub piece: usize,
    pub meant: Meant,
}

impl Case {
    pub fn new(group: &'static str, name: impl Into<String>, input: Vec<u8>, meant: Meant) -> Case {
        Case {
            group,
            name: name.into(),
            input,
            piece: pieces::MOST,
            meant,
        }
    }
}

/// What to leave out and what to add.
#[derive(Clone, Copy, Debug, Default)]
pub struct Options {
    /// No files that fill a table (62 and 63 need them).
    pub small: bool,
    /// Behind the counted cases, every byte value at every place of a small file.
    pub all_bytes: bool,
    /// Nothing but long files: those that fill a table, and those of 100,000 S records (61 needs
    /// them).
    pub long: bool,
}

/// The kinds.
#[derive(Clone, Copy, Debug, PartialEq, Eq)]
enum Group {
    Bound,
    Break,
    Pair,
    Valid,
    Truncated,
    Byte,
    Mutated,
    Ends,
}

/// Which kinds follow each other, over and over. Of 22,000 cases enough are bounds, breaks and
/// truncations that each of them comes.
const MIXTURE: [Group; 27] = {
    use Group::*;
    [
        Bound, Break, Pair, Truncated, Break, Bound, Byte, Pair, Mutated, Break, Bound, Valid,
        Pair, Break, Ends, Bound, Mutated, Truncated, Break, Pair, Byte, Bound, Mutated, Break,
        Valid, Bound, Bound,
    ]
};

/// Three files that fill a table in so many cases, and where they stand among them.
const FULL_TABLE_EVERY: u64 = 800;
const FULL_TABLE_AT: [u64; 3] = [100, 350, 600];

/// One long run of S records in so many cases, and where it stands among them.
const RUN_EVERY: u64 = 160;
const RUN_AT: u64 = 40;

/// From so many cases on each number comes often enough, in any mixture and among long files.
const ENOUGH_CASES: u64 = 22_000;
const ENOUGH_LONG_CASES: u64 = 40;

pub struct Cases {
    seed: u64,
    count: u64,
    options: Options,
    next: u64,
    made: [u64; 8],
    breaks: Vec<Break>,
    bounds: Vec<Case>,
    sample: Vec<u8>,
}

impl Cases {
    pub fn new(seed: u64, count: u64, options: Options) -> Cases {
        let mut bounds = bounds::all(seed);
        Rng::of(seed, 98, 0).shuffle(&mut bounds);
        Cases {
            seed,
            count,
            options,
            next: 0,
            made: [0; 8],
            breaks: breaks::all(),
            bounds,
            sample: sample().input(),
        }
    }

    /// The numbers that have to come often enough. 61 is left to the long files, which are many
    /// megabytes each.
    pub fn promised(&self) -> Vec<u8> {
        if self.options.long {
            return match self.count >= ENOUGH_LONG_CASES {
                true => vec![61],
                false => Vec::new(),
            };
        }
        let left_out: &[u8] = match self.options.small {
            true => &[61, 62, 63],
            false => &[61],
        };
        match self.count >= ENOUGH_CASES {
            true => answers().filter(|n| !left_out.contains(n)).collect(),
            false => Vec::new(),
        }
    }

    fn made_at(&mut self, index: u64) -> Option<Case> {
        if index >= self.count {
            return self.swept(index - self.count);
        }
        if self.options.long {
            let mut rng = Rng::of(self.seed, 51, index);
            return Some(big::long(&mut rng, index));
        }
        let group = MIXTURE[index as usize % MIXTURE.len()];
        let at_fixed_place = self.full_table(index).or_else(|| self.long_run(index));
        Some(at_fixed_place.unwrap_or_else(|| self.of_group(group)))
    }

    /// Files that fill a table stand at fixed places.
    fn full_table(&self, index: u64) -> Option<Case> {
        if self.options.small {
            return None;
        }
        let (round, place) = (index / FULL_TABLE_EVERY, index % FULL_TABLE_EVERY);
        let kind = FULL_TABLE_AT.iter().position(|at| *at == place)?;
        let mut rng = Rng::of(self.seed, 50, index);
        Some(match kind {
            0 => big::ids_overflow(&mut rng),
            1 => big::employers_overflow(&mut rng),
            _ => big::full(&mut rng, round),
        })
    }

    /// So do long runs.
    fn long_run(&self, index: u64) -> Option<Case> {
        let wanted = !self.options.small && index % RUN_EVERY == RUN_AT;
        wanted.then(|| runs::run(&mut Rng::of(self.seed, 52, index)))
    }

    fn of_group(&mut self, group: Group) -> Case {
        let k = self.made[group as usize];
        self.made[group as usize] += 1;
        let mut rng = Rng::of(self.seed, group as u64, k);
        match group {
            Group::Bound => self.bounds[k as usize % self.bounds.len()].clone(),
            Group::Break => self.broken(&mut rng, k),
            Group::Pair => self.broken_twice(&mut rng),
            Group::Valid => random_valid(&mut rng),
            Group::Truncated => self.truncated(k),
            Group::Byte => self.one_byte_changed(&mut rng),
            Group::Mutated => mutated(&mut rng),
            Group::Ends => odd_ends(&mut rng),
        }
    }

    /// Each break in turn.
    fn broken(&self, rng: &mut Rng, k: u64) -> Case {
        let one = &self.breaks[k as usize % self.breaks.len()];
        loop {
            let mut draft = valid(rng, SMALL);
            if let Some(refusal) = one.apply(rng, &mut draft) {
                let meant = Meant::Refused(refusal);
                return Case::new("break", &one.name, draft.input(), meant);
            }
        }
    }

    /// Two breaks of one file, mostly in the same line: which comes first?
    fn broken_twice(&self, rng: &mut Rng) -> Case {
        let in_one_line = !rng.one_in(4);
        loop {
            let mut draft = valid(rng, SMALL);
            let first = &self.breaks[rng.index(self.breaks.len())];
            let second = &self.breaks[rng.index(self.breaks.len())];
            let Some(one) = first.apply(rng, &mut draft) else {
                continue;
            };
            let Some(other) = second.apply(rng, &mut draft) else {
                continue;
            };
            if one.line == other.line || !in_one_line {
                let name = format!("{}; {}", first.name, second.name);
                return Case::new("pair", name, draft.input(), Meant::Unsaid);
            }
        }
    }

    /// The sample file cut at every length, from its header on.
    fn truncated(&self, k: u64) -> Case {
        let length = k as usize % (self.sample.len() + 1);
        let input = self.sample[..length].to_vec();
        Case::new(
            "truncated",
            format!("cut at {length}"),
            input,
            Meant::Unsaid,
        )
    }

    fn one_byte_changed(&self, rng: &mut Rng) -> Case {
        let place = rng.index(self.sample.len());
        let byte = match rng.below(4) {
            0 => rng.pick(&[0x00, 0x1F, 0x7F, 0x80, 0xFF, b'\n', b'\r']),
            1 => rng.below(256) as u8,
            _ => printable(rng),
        };
        self.with_byte(place, byte)
    }

    fn with_byte(&self, place: usize, byte: u8) -> Case {
        let mut input = self.sample.clone();
        input[place] = byte;
        let name = format!("byte {byte:02X} at {place}");
        Case::new("byte", name, input, Meant::Unsaid)
    }

    /// Behind the counted cases: every byte value at every place of the sample.
    fn swept(&self, k: u64) -> Option<Case> {
        let place = (k / 256) as usize;
        let wanted = self.options.all_bytes && place < self.sample.len();
        wanted.then(|| self.with_byte(place, (k % 256) as u8))
    }
}

impl Iterator for Cases {
    type Item = Case;

    fn next(&mut self) -> Option<Case> {
        let index = self.next;
        self.next += 1;
        let mut case = self.made_at(index)?;
        case.piece = pieces::size(&mut Rng::of(self.seed, 97, index), &case.input);
        Some(case)
    }
}

/// A small file that uses what it can: one A, E, S, T and F, all three line ends, an account
/// number, extensions, an amended and final return, period 09.
pub fn sample() -> Draft {
    let quarter = Quarter::new(2025, 9);
    let employees = vec![(123_456_789, 1_234_567)];
    let fein = 12_345_678;
    let mut draft = tidy(quarter, quarter, &[Employer { fein, employees }]);
    draft.lines[0].put(204, b"12");
    draft.lines[1].put(173, b"1234567890");
    draft.lines[1].put(187, b"1");
    draft.lines[1].put(271, b"7");
    draft.lines[1].put(282, b"109302025");
    for (place, end) in [CRLF, LF, CR, CRLF, LF].into_iter().enumerate() {
        draft.lines[place].end = end.to_vec();
    }
    draft
}

/// How many employers at most, and how many employees each.
const SHAPES: [(u64, u64); 5] = [(20, 2), (1, 40), (5, 8), (60, 1), (2, 1)];

fn random_valid(rng: &mut Rng) -> Case {
    let size = match rng.one_in(5) {
        true => {
            let (employers, employees) = rng.pick(&SHAPES);
            Size {
                employers,
                employees,
            }
        }
        false => SMALL,
    };
    let draft = valid(rng, size);
    Case::new("valid", "", draft.input(), Meant::Accepted)
}

#[cfg(test)]
mod tests {
    use super::*;

    /// How many cases of a kind 22,000 have: some places are taken by full tables.
    fn slots(group: Group) -> usize {
        (0..22_000)
            .filter(|index| !FULL_TABLE_AT.contains(&(index % FULL_TABLE_EVERY)))
            .filter(|index| MIXTURE[*index as usize % MIXTURE.len()] == group)
            .count()
    }

    #[test]
    fn a_run_of_22_000_has_room_for_all() {
        let (bounds, breaks) = (bounds::all(1).len(), breaks::all().len());
        assert!(bounds <= slots(Group::Bound), "{bounds}");
        assert!(20 * breaks <= slots(Group::Break), "{breaks}");
        assert!(sample().input().len() < slots(Group::Truncated));
    }

    /// The k-th case does not depend on how many there are.
    #[test]
    fn cases_are_the_same_again() {
        let take = |count| -> Vec<(Vec<u8>, usize)> {
            let cases = Cases::new(8, count, Options::default());
            cases.take(90).map(|c| (c.input, c.piece)).collect()
        };
        assert_eq!(take(90), take(22_000));
    }

    #[test]
    fn what_is_promised() {
        let promised = |count, options| Cases::new(1, count, options).promised();
        let usual = Options::default();
        assert_eq!(promised(19_999, usual), []);
        // Acceptance, 8 + 11 + 36 numbers and 70, but for 61.
        assert_eq!(promised(22_000, usual).len(), 56);
        let long = Options {
            long: true,
            ..usual
        };
        assert_eq!(promised(39, long), []);
        assert_eq!(promised(40, long), [61]);
    }
}
