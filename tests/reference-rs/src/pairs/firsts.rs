//! The cases that pairs begin with: those of `gen`, and among them crowded files, since few of `gen`
//! have so many people under an employer that there is much to exchange.

use crate::breaks::{self, Break};
use crate::draft::{valid, Size};
use crate::gen::{Case, Cases, Meant, Options};
use crate::rng::Rng;

const CROWDED: Size = Size {
    employers: 3,
    employees: 12,
};

/// Of so many cases the last two are crowded: one that is valid, and one that is broken.
const ROUND: u64 = 8;

pub struct Firsts {
    seed: u64,
    next: u64,
    cases: Cases,
    breaks: Vec<Break>,
}

impl Firsts {
    /// They do not end: cases without an S record are passed over, so there is no telling how many
    /// it takes.
    pub fn new(seed: u64, options: Options) -> Firsts {
        Firsts {
            seed,
            next: 0,
            cases: Cases::new(seed, u64::MAX, options),
            breaks: breaks::all(),
        }
    }

    /// Each break in turn.
    fn crowded_and_broken(&self, rng: &mut Rng, turn: u64) -> Case {
        let one = &self.breaks[turn as usize % self.breaks.len()];
        loop {
            let mut draft = valid(rng, CROWDED);
            if let Some(refusal) = one.apply(rng, &mut draft) {
                let meant = Meant::Refused(refusal);
                return Case::new("crowd", &one.name, draft.input(), meant);
            }
        }
    }
}

fn crowded(rng: &mut Rng) -> Case {
    let draft = valid(rng, CROWDED);
    Case::new("crowd", "", draft.input(), Meant::Accepted)
}

impl Iterator for Firsts {
    type Item = Case;

    fn next(&mut self) -> Option<Case> {
        let index = self.next;
        self.next += 1;
        let mut rng = Rng::of(self.seed, 42, index);
        match index % ROUND {
            6 => Some(crowded(&mut rng)),
            7 => Some(self.crowded_and_broken(&mut rng, index / ROUND)),
            _ => self.cases.next(),
        }
    }
}

#[cfg(test)]
mod tests {
    use super::*;
    use crate::ack::outcome;
    use crate::format::Format;
    use crate::tally::Tally;

    /// The maker of each crowded file knows what it gets.
    #[test]
    fn crowds_are_as_meant() {
        let options = Options {
            small: true,
            ..Options::default()
        };
        let breaks = breaks::all().len() as u64;
        let some = Firsts::new(2, options).take((ROUND * breaks) as usize);
        let crowds: Vec<Case> = some.filter(|case| case.group == "crowd").collect();
        assert_eq!(crowds.len() as u64, 2 * breaks);
        let mut tally = Tally::of(Format::Pfml);
        for case in crowds {
            assert_ne!(case.meant, Meant::Unsaid);
            tally.count(&case, &outcome(&case.input));
        }
        assert_eq!(tally.finish(Vec::new()), Ok(()));
    }
}
