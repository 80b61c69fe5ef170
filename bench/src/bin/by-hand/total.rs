//! The T records.

use crate::bounds::{is_entity, value, Bounds, Columns};
use crate::layout;

static BOUNDS: Bounds = Bounds::of(&layout::T);

/// Whether a T breaks no edit, under an E with this FEIN and S records of this count and sum.
pub fn is_fine(line: &Columns, fein: &[u8; 9], count: u64, cents: u64) -> bool {
    BOUNDS.hold(line)
        && is_entity(&line[8..12])
        && line[12..21] == *fein
        && value(&line[1..8]) == count
        && value(&line[26..40]) == cents
}
