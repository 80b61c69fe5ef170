//! The FEINs of the E records read, as a hash table of numbers; none of them is zero.

/// "Tables: 1,024 employers".
pub const MOST_EMPLOYERS: usize = 1_024;

const SLOTS: usize = 4 * MOST_EMPLOYERS;
const SHIFT: u32 = 32 - SLOTS.trailing_zeros();

pub struct Feins {
    slots: [u32; SLOTS],
}

impl Feins {
    pub const fn new() -> Feins {
        Feins { slots: [0; SLOTS] }
    }

    pub fn contains(&self, fein: u32) -> bool {
        self.slots[self.find(fein)] == fein
    }

    pub fn put(&mut self, fein: u32) {
        let slot = self.find(fein);
        self.slots[slot] = fein;
    }

    /// The slot that holds a number, or else the one where it is to be put. There is always a free one.
    fn find(&self, fein: u32) -> usize {
        let mut slot = (fein.wrapping_mul(0x9E37_79B1) >> SHIFT) as usize;
        while self.slots[slot] != 0 && self.slots[slot] != fein {
            slot = (slot + 1) % SLOTS;
        }
        slot
    }
}
