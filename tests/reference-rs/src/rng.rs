//! A small seeded generator (splitmix64), so that a seed gives the same cases everywhere.

#[derive(Clone)]
pub struct Rng(u64);

impl Rng {
    /// A generator of its own for the k-th case of a group.
    pub fn of(seed: u64, group: u64, k: u64) -> Rng {
        let mut rng = Rng(seed ^ group.wrapping_mul(0xD6E8_FEB8_6659_FD93));
        rng.0 = rng.next() ^ k.wrapping_mul(0xA076_1D64_78BD_642F);
        rng.next();
        rng
    }

    pub fn next(&mut self) -> u64 {
        self.0 = self.0.wrapping_add(0x9E37_79B9_7F4A_7C15);
        let mut z = self.0;
        z = (z ^ (z >> 30)).wrapping_mul(0xBF58_476D_1CE4_E5B9);
        z = (z ^ (z >> 27)).wrapping_mul(0x94D0_49BB_1331_11EB);
        z ^ (z >> 31)
    }

    /// A number from 0 to `bound` - 1.
    pub fn below(&mut self, bound: u64) -> u64 {
        self.next() % bound
    }

    pub fn index(&mut self, length: usize) -> usize {
        self.below(length as u64) as usize
    }

    /// A number from `low` to `high`, both included.
    pub fn between(&mut self, low: u64, high: u64) -> u64 {
        low + self.below(high - low + 1)
    }

    pub fn column(&mut self, first: usize, last: usize) -> usize {
        self.between(first as u64, last as u64) as usize
    }

    /// The first or last column, or some column from one to the other.
    pub fn end_or_between(&mut self, first: usize, last: usize) -> usize {
        let between = self.column(first, last);
        self.pick(&[first, last, between])
    }

    /// True once in so many times.
    pub fn one_in(&mut self, times: u64) -> bool {
        self.below(times) == 0
    }

    pub fn pick<T: Copy>(&mut self, from: &[T]) -> T {
        from[self.index(from.len())]
    }

    pub fn shuffle<T>(&mut self, list: &mut [T]) {
        for place in (1..list.len()).rev() {
            list.swap(place, self.index(place + 1));
        }
    }
}
