//! States as walks leave them, with their tables.

use crate::calendar::Quarter;
use crate::draft::*;
use crate::edits::Refusal;
use crate::format::Format;
use crate::lines::first_line;
use crate::meaning::{Entry, Room};
use crate::tables::Tables;
use crate::walk::{self, Standing, State};

/// A walk between two calls.
#[derive(Clone, Debug)]
pub struct Moment {
    pub state: State,
    pub tables: Tables,
}

/// Behind so many lines of a draft, none of which may be refused.
pub fn walked(draft: &Draft, lines: usize, room: Room) -> Moment {
    let mut tables = Tables::zero(room);
    let (ids, list) = tables.lend(room);
    let (mut state, refusal) = walk::open(Format::Pfml, draft.held, ids, list);
    assert_eq!(refusal, None);
    let file = draft.file();
    let mut rest = &file[..];
    for _ in 0..lines {
        let answer = walk::line(&mut state, ids, list, rest);
        assert_eq!(answer.refusal, None);
        rest = &rest[answer.taken..];
    }
    Moment { state, tables }
}

/// The bytes of a draft after so many lines.
pub fn rest_of(draft: &Draft, lines: usize) -> Vec<u8> {
    let file = draft.file();
    let mut rest = &file[..];
    for _ in 0..lines {
        rest = &rest[first_line(rest).taken()..];
    }
    rest.to_vec()
}

/// What the fixed scenes are lent, if they say nothing else: more than `base` needs.
pub const LENT: Room = Room {
    ids: 4,
    employers: 3,
};

pub const HELD: Quarter = Quarter::new(2026, 6);
/// A's in `base`.
pub const QUARTER: Quarter = Quarter::new(2026, 3);

/// Two employers, of two and of three employees, one of them applied for. The first return is
/// amended, the second final.
pub fn base() -> Draft {
    let employers = [
        Employer {
            fein: 12_345_678,
            employees: vec![(111_111_111, 100), (222_222_222, 200)],
        },
        Employer {
            fein: 77,
            employees: vec![(333_333_333, 300), (0, 50), (444_444_444, 25)],
        },
    ];
    let mut draft = tidy(HELD, QUARTER, &employers);
    draft.lines[1].put(187, b"1");
    draft.lines[5].put(282, b"103312026");
    draft
}

/// The walk over `base` in each of the seven phases; with an E open it is the second, with all of
/// its employees.
pub fn in_each_phase() -> Vec<Moment> {
    let draft = base();
    let mut moments: Vec<Moment> = [0, 1, 9, 10, 11]
        .into_iter()
        .map(|lines| walked(&draft, lines, LENT))
        .collect();
    let mut accepted = moments[4].clone();
    accepted.state.standing = Standing::Accepted;
    moments.push(accepted);
    moments.push(refused(44));
    moments
}

/// A walk refused with this number, and tables as no refusal leaves them.
pub fn refused(number: u8) -> Moment {
    let mut moment = walked(&base(), 9, LENT);
    let state = State::opened(Quarter::default());
    moment.state = State {
        standing: Standing::Refused(Refusal::new(number, 6, 6)),
        ..state
    };
    moment
}

/// `base` with its second E open.
pub fn e_open() -> Moment {
    walked(&base(), 9, LENT)
}

/// With its second E open, which says 1, and no S under it yet.
pub fn e_open_without_s() -> Moment {
    walked(&base(), 6, LENT)
}

/// An E open that says 0.
pub fn e_open_saying_0() -> Moment {
    walked(&zero_return(HELD, QUARTER), 2, LENT)
}

pub fn after_t() -> Moment {
    walked(&base(), 10, LENT)
}

/// Some content for tables that a walk left with zeros.
pub fn content() -> Tables {
    Tables {
        ids: vec![5, 4_294_967_295, 0, 7],
        list: vec![
            Entry::plain(12_345_678, 2, 300).of_kind(1, 0, 0),
            Entry::plain(9, 8, 7).of_kind(6, 5, 4),
        ],
    }
}
