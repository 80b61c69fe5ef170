//! The employees of an input, and what can be changed about them while it stays alike.

use crate::alike::{columns, is_identity, is_name, is_record, value};
use crate::alike::{HEADER, IDENTITY, NAMES, WAGES};
use crate::amounts::moved;
use crate::draft::{put, put_number, random_id, random_name, random_wages, MOST_WAGES};
use crate::rng::Rng;
use std::collections::HashSet;

/// Where the S records of an input begin.
pub struct Roster {
    /// Those under each E.
    pub teams: Vec<Vec<usize>>,
    /// Those under none.
    pub strays: Vec<usize>,
}

impl Roster {
    pub fn of(input: &[u8]) -> Roster {
        let (mut teams, mut strays): (Vec<Vec<usize>>, Vec<usize>) = Default::default();
        let mut start = HEADER.min(input.len());
        let mut under_e = false;
        for cut in crate::lines::lines_of(&input[start..]) {
            if !is_record(cut.text, b'S') {
                under_e = is_record(cut.text, b'E');
                teams.extend(under_e.then(Vec::new));
            } else if let (true, Some(team)) = (under_e, teams.last_mut()) {
                team.push(start);
            } else {
                strays.push(start);
            }
            start += cut.taken();
        }
        Roster { teams, strays }
    }

    fn all(&self) -> impl Iterator<Item = usize> + '_ {
        self.teams.iter().flatten().chain(&self.strays).copied()
    }

    pub fn is_empty(&self) -> bool {
        self.all().next().is_none()
    }

    /// Makes the fields of employees meet their own rules, where they do not.
    pub fn mend(&self, rng: &mut Rng, input: &mut [u8]) {
        for start in self.all() {
            let line = &mut input[start..];
            if !is_identity(columns(line, IDENTITY)) {
                put_number(line, IDENTITY.0, IDENTITY.1, random_id(rng));
            }
            for (first, last) in NAMES {
                if !is_name(columns(line, (first, last))) {
                    put(line, first, &any_name(rng, last + 1 - first));
                }
            }
            // The totals of a draft count what is no digit as 0.
            for c in &mut line[WAGES.0 - 1..WAGES.1] {
                if !c.is_ascii_digit() {
                    *c = b'0';
                }
            }
        }
    }

    /// Under some employer, some get the number of another one above them.
    pub fn repeat_some(&self, rng: &mut Rng, input: &mut [u8]) {
        let two_or_more: Vec<&Vec<usize>> = self.teams.iter().filter(|t| t.len() > 1).collect();
        if two_or_more.is_empty() {
            return;
        }
        let team = rng.pick(&two_or_more);
        let mut ids = numbers(input, team, IDENTITY);
        for place in 1..ids.len() {
            if rng.one_in(2) {
                ids[place] = ids[rng.index(place)];
            }
        }
        put_numbers(input, team, IDENTITY, &ids);
    }

    /// Other identity numbers for all who have one.
    pub fn renumber(&self, rng: &mut Rng, input: &mut [u8]) {
        let everybody: Vec<usize> = self.all().collect();
        // Numbers from elsewhere in the file: whoever gets one may come to work for two employers.
        let mut known = numbers(input, &everybody, IDENTITY);
        known.retain(|id| *id != 0);
        for team in &self.teams {
            let ids = renumbered(rng, &numbers(input, team, IDENTITY), &known);
            put_numbers(input, team, IDENTITY, &ids);
            known.extend(ids.iter().filter(|id| **id != 0));
        }
        // Under no employer nothing is said of repeats.
        for start in &self.strays {
            let ids = numbers(input, &[*start], IDENTITY);
            put_numbers(input, &[*start], IDENTITY, &renumbered(rng, &ids, &known));
        }
    }

    /// Other names for most.
    pub fn rename(&self, rng: &mut Rng, input: &mut [u8]) {
        for start in self.all() {
            for (first, last) in NAMES {
                if !rng.one_in(4) {
                    let name = any_name(rng, last + 1 - first);
                    put(&mut input[start..], first, &name);
                }
            }
        }
    }

    /// Other wages: of the same total under each employer, and any under none.
    pub fn move_wages(&self, rng: &mut Rng, input: &mut [u8]) {
        for team in &self.teams {
            let wages = moved(rng, &numbers(input, team, WAGES), MOST_WAGES);
            put_numbers(input, team, WAGES, &wages);
        }
        for start in &self.strays {
            let usual = random_wages(rng);
            let wages = rng.pick(&[usual, MOST_WAGES, 0]);
            put_numbers(input, &[*start], WAGES, &[wages]);
        }
    }
}

/// What S records at these places have in a field.
fn numbers(input: &[u8], places: &[usize], field: (usize, usize)) -> Vec<u64> {
    let on = |start: &usize| value(&input[*start..], field);
    places.iter().map(on).collect()
}

fn put_numbers(input: &mut [u8], places: &[usize], (first, last): (usize, usize), all: &[u64]) {
    for (start, number) in places.iter().zip(all) {
        put_number(&mut input[*start..], first, last, *number);
    }
}

/// A name in capitals, in small letters or in both.
fn any_name(rng: &mut Rng, width: usize) -> Vec<u8> {
    let mut name = random_name(rng, width);
    let small_one_in = rng.pick(&[0, 1, 2, 5]);
    for c in &mut name {
        if small_one_in > 0 && rng.one_in(small_one_in) {
            *c = c.to_ascii_lowercase();
        }
    }
    name
}

/// Numbers at the ends of what may be filed.
const EDGES: [u64; 8] = [
    1,
    99_999_999,
    665_999_999,
    667_000_000,
    899_999_999,
    900_500_000,
    999_999_999,
    69_000_000,
];

/// A number that is none of those taken.
fn fresh(rng: &mut Rng, known: &[u64], taken: &HashSet<u64>) -> u64 {
    loop {
        let id = match rng.below(6) {
            0 => rng.pick(&EDGES),
            1 | 2 => rng.pick(known),
            _ => random_id(rng),
        };
        if !taken.contains(&id) {
            return id;
        }
    }
}

/// Other numbers for those under one employer: zero stays, a new number becomes another new one, and
/// one that repeats becomes any of those above it.
fn renumbered(rng: &mut Rng, ids: &[u64], known: &[u64]) -> Vec<u64> {
    let mut seen = HashSet::new();
    let (mut given, mut taken) = (Vec::new(), HashSet::new());
    let mut renumber = |id: &u64| {
        if *id == 0 {
            return 0;
        }
        if !seen.insert(*id) {
            return rng.pick(&given);
        }
        let new = fresh(rng, known, &taken);
        given.push(new);
        taken.insert(new);
        new
    };
    ids.iter().map(&mut renumber).collect()
}

#[cfg(test)]
mod tests {
    use super::*;
    use crate::calendar::Quarter;
    use crate::draft::{record_e, record_s, record_t, Draft, AUGUSTA, LF};

    const QUARTER: Quarter = Quarter::new(2026, 3);

    fn s(id: u64) -> Vec<u8> {
        record_s(QUARTER, 12_345_678, id, 100 + id)
    }

    fn e() -> Vec<u8> {
        record_e(QUARTER, 12_345_678, true, &AUGUSTA)
    }

    fn input_of(lines: &[Vec<u8>]) -> Vec<u8> {
        let mut draft = Draft::new(QUARTER, QUARTER);
        lines.iter().for_each(|text| draft.push(text.clone()));
        draft.input()
    }

    /// The identity numbers of each team, and those of the strays.
    fn ids_of(input: &[u8]) -> (Vec<Vec<u64>>, Vec<u64>) {
        let roster = Roster::of(input);
        let of = |places: &Vec<usize>| numbers(input, places, IDENTITY);
        (roster.teams.iter().map(of).collect(), of(&roster.strays))
    }

    #[test]
    fn who_is_under_whom() {
        let t = || record_t(12_345_678, 0, 0);
        let short = || s(9)[..289].to_vec();
        let lines = [
            s(1),
            e(),
            s(2),
            s(3),
            t(),
            s(4),
            e(),
            e(),
            s(5),
            short(),
            s(6),
        ];
        let input = input_of(&lines);
        let wanted = (vec![vec![2, 3], vec![], vec![5]], vec![1, 4, 6]);
        assert_eq!(ids_of(&input), wanted);
        // Small letters, and no end after the last one.
        let mut small = input.to_ascii_lowercase();
        small.pop();
        assert_eq!(ids_of(&small), wanted);
        // The header is no line.
        assert!(Roster::of(&s(1)).is_empty());
        assert!(Roster::of(b"20").is_empty());
        let behind_an_end = [b"202603 ", LF, &s(7)].concat();
        assert_eq!(ids_of(&behind_an_end).1, [7]);
    }

    #[test]
    fn what_is_mended() {
        let mut rng = Rng::of(2, 0, 0);
        let mut bad = s(666_000_001);
        put(&mut bad, 11, b" X2");
        put(&mut bad, 31, b"            ");
        put(&mut bad, 64, b"1O000000000.5 ");
        let mut mended = input_of(&[bad.clone()]);
        Roster::of(&mended).mend(&mut rng, &mut mended);
        let line = &mended[HEADER..];
        assert!(is_identity(columns(line, IDENTITY)));
        assert!(NAMES.iter().all(|name| is_name(columns(line, *name))));
        assert_eq!(columns(line, WAGES), b"10000000000050");
        assert_eq!(line[42..63], bad[42..63]);
        // What meets its rules stays.
        let good = input_of(&[s(1), e(), s(0)]);
        let mut same = good.clone();
        Roster::of(&good).mend(&mut rng, &mut same);
        assert_eq!(same, good);
    }

    #[test]
    fn numbers_repeat_where_they_did() {
        let ids = [5, 0, 6, 5, 0, 7, 6, 6];
        let mut last_ones = HashSet::new();
        for k in 0..200 {
            let new = renumbered(&mut Rng::of(3, 0, k), &ids, &[5, 6, 7]);
            assert!(new[1] == 0 && new[4] == 0);
            let (a, b, c) = (new[0], new[2], new[5]);
            assert!(a != b && a != c && b != c && ![a, b, c].contains(&0));
            assert!([a, b].contains(&new[3]) && [a, b, c].contains(&new[6]));
            last_ones.insert([a, b, c].iter().position(|id| *id == new[7]));
        }
        assert_eq!(last_ones.len(), 3);
    }

    #[test]
    fn names_meet_their_rule() {
        let mut small_letters = 0;
        for k in 0..500 {
            let name = any_name(&mut Rng::of(5, 0, k), 12);
            assert!(name.len() == 12 && is_name(&name));
            small_letters += name.iter().filter(|c| c.is_ascii_lowercase()).count();
        }
        assert!(small_letters > 500, "{small_letters}");
    }
}
