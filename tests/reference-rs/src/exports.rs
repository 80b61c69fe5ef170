//! The calls of the walk by format: what `include/wage.h` exports is one set of calls for all, and
//! the format that is named at opening, or that a state holds, decides whose rules are asked.

use crate::calendar::Quarter;
use crate::format::Format;
use crate::meaning::Entry;
use crate::walk::{self, Answer, LineAnswer, State};
use crate::wham;

pub fn open(format: Format, held: Quarter, ids: &mut [u32], list: &mut [Entry]) -> (State, Answer) {
    match format {
        Format::Wham(edition) => wham::walk::open(edition, held, ids, list),
        _ => walk::open(format, held, ids, list),
    }
}

pub fn line(state: &mut State, ids: &mut [u32], list: &mut [Entry], bytes: &[u8]) -> LineAnswer {
    match state.format {
        Format::Wham(edition) => wham::walk::line(edition, state, ids, list, bytes),
        _ => walk::line(state, ids, list, bytes),
    }
}

pub fn end(state: &mut State, ids: &mut [u32], list: &mut [Entry]) -> Answer {
    match state.format {
        Format::Wham(edition) => wham::walk::end(edition, state, ids, list),
        _ => walk::end(state, ids, list),
    }
}

pub fn whole(
    format: Format,
    held: Quarter,
    ids: &mut [u32],
    list: &mut [Entry],
    file: &[u8],
) -> (State, Answer) {
    match format {
        Format::Wham(edition) => wham::walk::whole(edition, held, ids, list, file),
        _ => walk::whole(format, held, ids, list, file),
    }
}

/// Whether a call that is lent tables of these lengths answers 72.
pub fn unfit(state: &State, id_table: usize, employer_list: usize) -> bool {
    match state.format {
        Format::Wham(edition) => wham::walk::unfit(edition, state, employer_list),
        _ => walk::unfit(state, id_table, employer_list),
    }
}
