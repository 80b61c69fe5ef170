//! The identity numbers under the open E, in file order. Numbers that only rise cannot repeat; the others are looked for
//! in a hash table, many at a time, so that the waits for memory run side by side.

/// "Tables: [...] 8,192 ids."
pub const MOST_IDS: usize = 8_192;

/// So many slots for each number: a place is most often free at the first look, and a wrong guess of the processor costs
/// more than the clearing of free slots.
const SLOTS_FOR_ONE: usize = 4;
const SLOTS: usize = SLOTS_FOR_ONE * MOST_IDS;

/// It begins as zeros, so that no page of it has to come from the program's file.
pub struct Ids {
    listed: [u32; MOST_IDS],
    count: usize,
    /// They do not only rise.
    mixed: bool,
    /// How many of them, from the first, stand in the table.
    hashed: usize,
    /// A number, or zero: free.
    slots: [u32; SLOTS],
    /// How many slots are in use: a power of two. Fewer numbers take fewer, which stay nearer to the processor.
    slots_in_use: usize,
}

impl Ids {
    pub const fn new() -> Ids {
        Ids {
            listed: [0; MOST_IDS],
            count: 0,
            mixed: false,
            hashed: 0,
            slots: [0; SLOTS],
            slots_in_use: 0,
        }
    }

    /// Begins the numbers of the next employer.
    pub fn begin(&mut self) {
        self.count = 0;
        self.mixed = false;
        self.empty_table(0);
    }

    pub fn contains(&self, id: u32) -> bool {
        self.listed[..self.count].contains(&id)
    }

    /// The room that is left for numbers; `keep` keeps what is written there.
    pub fn room(&mut self) -> &mut [u32] {
        &mut self.listed[self.count..]
    }

    pub fn is_full(&self) -> bool {
        self.count == MOST_IDS
    }

    /// Keeps so many more numbers if none repeats, else none; tells whether it kept them. `rising`: each of them is
    /// greater than the one before it. `more`: more are likely to come.
    pub fn keep(&mut self, new: usize, rising: bool, more: bool) -> bool {
        if new == 0 {
            return true;
        }
        let before = self.count;
        self.count += new;
        self.mixed |= !rising || before > 0 && self.listed[before] <= self.listed[before - 1];
        if !self.mixed {
            return true;
        }
        if self.slots_in_use < SLOTS_FOR_ONE * self.count {
            let wanted = if more { 4 * self.count } else { self.count };
            self.empty_table((SLOTS_FOR_ONE * wanted).next_power_of_two().min(SLOTS));
        }
        let fine = self.hash();
        if !fine {
            self.count = before;
            self.empty_table(0);
        }
        fine
    }

    fn empty_table(&mut self, slots: usize) {
        self.hashed = 0;
        self.slots_in_use = slots;
        self.slots[..slots].fill(0);
    }

    /// Puts the numbers into the table that are not there yet; tells whether none repeats.
    fn hash(&mut self) -> bool {
        let mask = self.slots_in_use - 1;
        let shift = 32 - self.slots_in_use.trailing_zeros();
        let slots = &mut self.slots[..=mask];
        for id in &self.listed[self.hashed..self.count] {
            let mut slot = (id.wrapping_mul(0x9E37_79B1) >> shift) as usize & mask;
            while slots[slot] != 0 {
                if slots[slot] == *id {
                    return false;
                }
                slot = (slot + 1) & mask;
            }
            slots[slot] = *id;
        }
        self.hashed = self.count;
        true
    }
}
