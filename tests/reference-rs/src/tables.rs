//! The two tables that a caller lends.

use crate::meaning::{Entry, Room};

#[derive(Clone, Debug, PartialEq, Eq)]
pub struct Tables {
    pub ids: Vec<u32>,
    pub list: Vec<Entry>,
}

impl Tables {
    pub fn zero(room: Room) -> Tables {
        Tables {
            ids: vec![0; room.ids],
            list: vec![Entry::default(); room.employers],
        }
    }

    /// So much of each table as is lent, and no more than there is.
    pub fn lend(&mut self, lent: Room) -> (&mut [u32], &mut [Entry]) {
        let ids = lent.ids.min(self.ids.len());
        let employers = lent.employers.min(self.list.len());
        (&mut self.ids[..ids], &mut self.list[..employers])
    }
}
