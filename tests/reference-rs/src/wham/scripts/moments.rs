//! States as walks leave them, with their tables.

use crate::calendar::Quarter;
use crate::edits::Refusal;
use crate::format::Format;
use crate::lines::first_line;
use crate::meaning::{Entry, Room};
use crate::scripts::without_ends;
use crate::tables::Tables;
use crate::walk::{Standing, State};
use crate::wham::draft::*;
use crate::wham::{walk, Edition};

pub use crate::scripts::moments::Moment;

const EDITION: Edition = Edition::Of2024;

/// What the fixed scenes are lent, if they say nothing else: more than `base` needs.
pub const LENT: Room = Room {
    ids: 4,
    employers: 5,
};

pub const HELD: Quarter = Quarter::new(2026, 6);
/// What `base` files.
pub const QUARTER: Quarter = Quarter::new(2026, 3);

/// Behind so many lines of a draft, none of which may be refused.
pub fn walked(draft: &Draft, lines: usize, room: Room) -> Moment {
    let mut tables = Tables::zero(room);
    let (ids, list) = tables.lend(room);
    let (mut state, refusal) = walk::open(EDITION, draft.held, ids, list);
    assert_eq!(refusal, None);
    let file = without_ends(&draft.file());
    let mut rest = &file[..];
    for _ in 0..lines {
        let answer = walk::line(EDITION, &mut state, ids, list, rest);
        assert_eq!(answer.refusal, None);
        rest = &rest[answer.taken..];
    }
    Moment { state, tables }
}

/// The bytes of a draft after so many lines.
pub fn rest_of(draft: &Draft, lines: usize) -> Vec<u8> {
    let file = draft.file();
    let mut rest = &file[..];
    for _ in 0..lines {
        rest = &rest[first_line(rest).taken()..];
    }
    rest.to_vec()
}

/// Four employers: with S and R records; saying 0, with an R and without T; with R and S records;
/// saying 0, without T. The lines: A; E, S, R, S, T; E, R; E, R, S, S, S, R, T; E; F.
pub fn base() -> Draft {
    let first = Employer {
        under: vec![
            Under::S(111_111_111, 100, 110),
            Under::R(5),
            Under::S(111_111_111, 200, 190),
        ],
        payments: Some(17),
        ..Employer::of(12_345_678, &[])
    };
    let second = Employer {
        under: vec![Under::R(999_999_999)],
        ..Employer::without_t(0)
    };
    let people = [(0, 300, 333), (222_222_222, 50, 0), (666_000_000, 0, 25)];
    let mut third = Employer::of(77, &people);
    third.under.insert(0, Under::R(1));
    third.under.push(Under::R(2));
    let employers = [first, second, third, Employer::without_t(999_999_999)];
    let mut draft = tidy(HELD, QUARTER, &employers);
    for place in [1, 2, 4] {
        let account_at = if place == 1 { 258 } else { 215 };
        draft.lines[place].put(account_at, b"1234-5678  ");
    }
    draft
}

/// How many lines of `base` lead to each phase.
const BEHIND: [usize; 6] = [0, 1, 14, 16, 15, 17];

/// The walk over `base` before A, after A, with an E open that says 1, with one that says 0, after T,
/// after F, accepted, and refused.
pub fn in_each_phase() -> Vec<Moment> {
    let draft = base();
    let mut moments: Vec<Moment> = BEHIND
        .into_iter()
        .map(|lines| walked(&draft, lines, LENT))
        .collect();
    let mut accepted = moments[5].clone();
    accepted.state.standing = Standing::Accepted;
    moments.push(accepted);
    moments.push(refused(52));
    moments
}

/// `base` with its third E open, which says 1, and all that stands under it.
pub fn e_open() -> Moment {
    walked(&base(), 14, LENT)
}

/// With its third E open, and no S under it yet.
pub fn e_open_without_s() -> Moment {
    walked(&base(), 10, LENT)
}

/// With its fourth E open, which says 0.
pub fn e_open_saying_0() -> Moment {
    walked(&base(), 16, LENT)
}

pub fn after_t() -> Moment {
    walked(&base(), 15, LENT)
}

/// A walk refused with this number, and tables as no refusal leaves them.
pub fn refused(number: u8) -> Moment {
    let mut moment = e_open();
    moment.state = State {
        format: Format::Wham(EDITION),
        standing: Standing::Refused(Refusal::new(number, 6, 6)),
        ..State::opened(Quarter::default())
    };
    moment
}

/// Some content for tables that a walk left with zeros.
pub fn content() -> Tables {
    Tables {
        ids: vec![5, 4_294_967_295, 0, 7],
        list: vec![
            Entry::plain(12_345_678, 2, 300).of_kind(1, 0, 0),
            Entry::plain(9, 8, 7).of_kind(6, 5, 4),
        ],
    }
}

#[cfg(test)]
mod tests {
    use super::*;
    use crate::command::standing_number;

    #[test]
    fn phases_in_their_order() {
        let standings = in_each_phase();
        let found: Vec<u64> = standings
            .iter()
            .map(|m| standing_number(m.state.standing))
            .collect();
        assert_eq!(found, [0, 1, 2, 2, 3, 4, 5, 6]);
        assert!(e_open().state.open.says_s_follow && e_open().state.open.s == 3);
        assert!(e_open_without_s().state.open.says_s_follow);
        assert_eq!(e_open_without_s().state.open.s, 0);
        assert!(!e_open_saying_0().state.open.says_s_follow);
        assert!(rest_of(&base(), 17).is_empty());
    }
}
