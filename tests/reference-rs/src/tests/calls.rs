//! The calls on states that a caller altered.

use super::Q1;
use crate::calendar::Quarter;
use crate::command::PHASES;
use crate::draft::*;
use crate::edits::{Phase, Refusal};
use crate::format::Format;
use crate::meaning::Entry;
use crate::walk::{self, MoreOfE, MoreOfFile, OpenE, Standing, State};

const IDS: usize = 4;
const LIST: usize = 3;

/// A fit state with an E open, and the tables that go with it.
pub fn e_open() -> (State, Vec<u32>, Vec<Entry>) {
    let state = State {
        format: Format::Pfml,
        standing: Standing::Among(Phase::EOpen),
        held: Q1,
        quarter_of_a: Q1,
        lines_read: 5,
        employers: 2,
        s: 3,
        cents: 1_000,
        open: OpenE {
            fein: 77,
            says_s_follow: true,
            s: 2,
            cents: 900,
            ids_in_use: 2,
            more: MoreOfE::default(),
        },
        more: MoreOfFile::default(),
    };
    (state, vec![21, 22, 23, 24], OF_E_OPEN.to_vec())
}

/// No walk leaves the second with numbers of its S records, nor the third with any number.
const OF_E_OPEN: [Entry; LIST] = [
    Entry::plain(11, 1, 100).of_kind(1, 0, 0),
    Entry::plain(77, 5, 6).of_kind(4, 3, 2),
    Entry::plain(8, 8, 8).of_kind(8, 8, 8),
];

/// Line and end call both answer 72 and change nothing.
fn assert_unfit(change: impl Fn(&mut State)) {
    let (mut state, mut ids, mut list) = e_open();
    change(&mut state);
    let before = (state, ids.clone(), list.clone());
    let wanted = Some(Refusal::new(72, 0, 0));
    let answer = walk::line(&mut state, &mut ids, &mut list, b"");
    assert_eq!((answer.taken, answer.refusal), (0, wanted));
    assert_eq!(walk::end(&mut state, &mut ids, &mut list), wanted);
    assert_eq!((state, ids, list), before);
}

fn assert_fit(change: impl Fn(&mut State)) {
    let (mut state, _, _) = e_open();
    change(&mut state);
    assert!(!walk::unfit(&state, IDS, LIST));
}

/// "72 comes first of all and exactly if: ...", each at its boundary.
#[test]
fn unfit_states() {
    let most = 99_999_999_999_999;
    assert_fit(|_| {});
    assert_fit(|s| s.open.ids_in_use = 4);
    assert_unfit(|s| s.open.ids_in_use = 5);
    assert_fit(|s| s.employers = 3);
    assert_unfit(|s| s.employers = 4);
    assert_fit(|s| s.s = 100_000);
    assert_unfit(|s| s.s = 100_001);
    assert_fit(|s| s.open.s = 3);
    assert_unfit(|s| s.open.s = 4);
    assert_fit(|s| s.cents = 3 * most);
    assert_unfit(|s| s.cents = 3 * most + 1);
    assert_fit(|s| s.open.cents = 2 * most);
    assert_unfit(|s| s.open.cents = 2 * most + 1);
    assert_fit(|s| s.lines_read = 231_074);
    assert_unfit(|s| s.lines_read = 231_075);
    assert_unfit(|s| s.employers = 0);
    assert_fit(|s| s.open.fein = 999_999_999);
    assert_unfit(|s| s.open.fein = 1_000_000_000);
    assert_unfit(|s| s.held = Quarter::new(2024, 12));
    assert_unfit(|s| s.held = Quarter::new(10_000, 3));
    assert_unfit(|s| s.held = Quarter::new(2026, 4));
    assert_unfit(|s| s.quarter_of_a = Quarter::new(2026, 9));
    assert_fit(|s| s.quarter_of_a = Quarter::new(2026, 6));
    assert_unfit(|s| s.quarter_of_a = Quarter::new(2024, 12));
    assert_unfit(|s| s.quarter_of_a = Quarter::new(2025, 11));
    assert_fit(|s| s.quarter_of_a = Quarter::new(2025, 12));
    // Beyond 65,536, however long the list.
    let (mut state, _, _) = e_open();
    state.employers = 65_537;
    assert!(walk::unfit(&state, IDS, 100_000));
    state.employers = 65_536;
    assert!(!walk::unfit(&state, IDS, 100_000));
}

/// "nor an open E's numbers, ids in use among them, when none is open"
#[test]
fn numbers_of_no_open_e() {
    let nonsense = OpenE {
        fein: u64::MAX,
        says_s_follow: true,
        s: u64::MAX,
        cents: u64::MAX,
        ids_in_use: u64::MAX,
        more: MORE_OF_E,
    };
    for phase in [Phase::BeforeA, Phase::AfterA, Phase::AfterT, Phase::AfterF] {
        assert_fit(|s| {
            s.standing = Standing::Among(phase);
            s.open = nonsense;
        });
    }
    assert_fit(|s| {
        s.standing = Standing::Accepted;
        s.open = nonsense;
        s.employers = 0;
    });
}

/// "A's once A is read"
#[test]
fn quarters_of_a_once_a_is_read() {
    assert_fit(|s| {
        s.standing = Standing::Among(Phase::BeforeA);
        s.quarter_of_a = Quarter::new(7, 7);
    });
    for standing in [Standing::Accepted, Standing::Among(Phase::AfterA)] {
        assert_unfit(|s| {
            s.standing = standing;
            s.quarter_of_a = Quarter::new(7, 7);
        });
    }
}

/// "a refused walk's number is none that a refusal leaves in the state"
#[test]
fn numbers_of_refused_walks() {
    for number in 0..=255 {
        let left = (1..=8).contains(&number)
            || (10..=20).contains(&number)
            || (30..=65).contains(&number)
            || number == 70;
        let (mut state, _, _) = e_open();
        state.standing = Standing::Refused(Refusal::new(number, 3, 4));
        state.held = Quarter::new(0, 0);
        assert_eq!(walk::unfit(&state, IDS, LIST), !left, "{number}");
        // With a format that is none, only those of an opening are.
        state.format = Format::Unknown;
        let by_opening = number == 70 || number == 73;
        assert_eq!(walk::unfit(&state, IDS, LIST), !by_opening, "{number}");
        // Counts are tested in a refused walk too.
        state.s = 100_001;
        assert!(walk::unfit(&state, IDS, LIST));
    }
}

/// "and is answered again, both zeroed again, to each later line or end call"; 70 "touches
/// nothing", and so does 73.
#[test]
fn refused_walks() {
    for number in [1, 63, 64, 65, 70, 73] {
        let (mut state, mut ids, mut list) = e_open();
        let refusal = Refusal::new(number, 3, 4);
        state.standing = Standing::Refused(refusal);
        if number == 73 {
            state.format = Format::Unknown;
        }
        let before = (state, ids.clone(), list.clone());
        let answer = walk::line(&mut state, &mut ids, &mut list, b"A");
        assert_eq!((answer.taken, answer.refusal), (0, Some(refusal)));
        assert_eq!(walk::end(&mut state, &mut ids, &mut list), Some(refusal));
        assert_eq!(state, before.0);
        match number {
            70 | 73 => assert_eq!((ids, list), (before.1, before.2)),
            _ => assert_eq!((ids, list), (vec![0; 4], vec![Entry::default(); 3])),
        }
    }
}

/// "71: line or end after acceptance; nothing changed"
#[test]
fn ended_walks() {
    let (mut state, mut ids, mut list) = e_open();
    state.standing = Standing::Accepted;
    let before = (state, ids.clone(), list.clone());
    let wanted = Some(Refusal::new(71, 0, 0));
    assert_eq!(
        walk::line(&mut state, &mut ids, &mut list, b"").refusal,
        wanted
    );
    assert_eq!(walk::end(&mut state, &mut ids, &mut list), wanted);
    assert_eq!((state, ids, list), before);
}

/// "Opening zeroes both tables, every entry." 70: "nothing touched". 73: "at opening after 70 and
/// acting as 70 does".
#[test]
fn openings() {
    let (_, mut ids, mut list) = e_open();
    let (state, answer) = walk::open(Format::Pfml, Q1, &mut ids, &mut list);
    assert_eq!((answer, state.held, state.lines_read), (None, Q1, 0));
    assert_eq!((ids, list), (vec![0; 4], vec![Entry::default(); 3]));

    let bad = Quarter::new(2024, 3);
    for (format, held, number) in [
        (Format::Pfml, bad, 70),
        (Format::Unknown, bad, 70),
        (Format::Unknown, Q1, 73),
    ] {
        let (_, mut ids, mut list) = e_open();
        let before = (ids.clone(), list.clone());
        let (mut state, answer) = walk::open(format, held, &mut ids, &mut list);
        let refusal = Refusal::new(number, 0, 0);
        let wanted = Some(refusal);
        assert_eq!(answer, wanted);
        assert_eq!(
            walk::line(&mut state, &mut ids, &mut list, b"A").refusal,
            wanted
        );
        assert_eq!(walk::end(&mut state, &mut ids, &mut list), wanted);
        assert_eq!(
            walk::whole(format, held, &mut ids, &mut list, b"A\n"),
            (state, wanted)
        );
        assert_eq!((ids, list), before);
        let zeros = State::opened(Quarter::default());
        let standing = Standing::Refused(refusal);
        let left = State {
            standing,
            format,
            ..zeros
        };
        assert_eq!(state, left);
    }
}

/// A format that is none: 72, in every walk that an opening did not refuse.
#[test]
fn walks_of_no_format() {
    assert_unfit(|s| s.format = Format::Unknown);
    let mut standings = vec![Standing::Accepted];
    standings.extend(PHASES.map(Standing::Among));
    standings.push(Standing::Refused(Refusal::new(44, 3, 4)));
    for standing in standings {
        assert_unfit(|s| {
            s.format = Format::Unknown;
            s.standing = standing;
        });
    }
}

const MORE_OF_E: MoreOfE = MoreOfE {
    second: u64::MAX,
    others: 19,
    nearest: u64::MAX,
    noted: true,
    account: [22, u64::MAX],
};
const MORE_OF_FILE: MoreOfFile = MoreOfFile {
    second: u64::MAX,
    others: 25,
    notes: u64::MAX,
};

/// What PFML does not use: no clause of 72 compares it; S leaves it, A, E, T and F set the open E's
/// to zero, the end leaves it and a refusal sets it to zero.
#[test]
fn numbers_that_pfml_does_not_use() {
    let none = MoreOfE::default();
    for (phase, line, left) in [
        (Phase::BeforeA, record_a(Q1, 1, &AUGUSTA), none),
        (Phase::AfterA, record_e(Q1, 8, true, &AUGUSTA), none),
        (Phase::EOpen, record_s(Q1, 77, 0, 50), MORE_OF_E),
        (Phase::EOpen, record_t(77, 2, 900), none),
        (Phase::AfterT, record_f(3, 2, 1_000), none),
    ] {
        let (mut state, mut ids, mut list) = e_open();
        state.standing = Standing::Among(phase);
        state.open.more = MORE_OF_E;
        state.more = MORE_OF_FILE;
        let before = state;
        let answer = walk::line(&mut state, &mut ids, &mut list, &with_end(line));
        assert_eq!(answer.refusal, None);
        assert_eq!((state.open.more, state.more), (left, MORE_OF_FILE));

        state = before;
        let refusal = walk::line(&mut state, &mut ids, &mut list, b"").refusal;
        assert_eq!(refusal, Some(Refusal::new(1, 6, 1)));
        assert_eq!((state.open.more, state.more), (none, MoreOfFile::default()));
    }
    let (mut state, mut ids, mut list) = e_open();
    state.standing = Standing::Among(Phase::AfterF);
    state.open.more = MORE_OF_E;
    state.more = MORE_OF_FILE;
    assert_eq!(walk::end(&mut state, &mut ids, &mut list), None);
    assert_eq!((state.open.more, state.more), (MORE_OF_E, MORE_OF_FILE));
}

fn with_end(text: Vec<u8>) -> Vec<u8> {
    [text, b"\r\nrest".to_vec()].concat()
}

/// T sets count and cents, keeps the entry's other numbers, and zeroes the ids in use, no others.
#[test]
fn a_total_in_an_altered_walk() {
    let (mut state, mut ids, mut list) = e_open();
    list[1].fein = 999;
    let bytes = with_end(record_t(77, 2, 900));
    let answer = walk::line(&mut state, &mut ids, &mut list, &bytes);
    assert_eq!((answer.taken, answer.refusal), (292, None));
    let totalled = Entry::plain(999, 2, 900).of_kind(4, 3, 2);
    assert_eq!(ids, [0, 0, 23, 24]);
    assert_eq!(list, [OF_E_OPEN[0], totalled, OF_E_OPEN[2]]);
    assert_eq!(state.standing, Standing::Among(Phase::AfterT));
    assert_eq!(
        (state.open, state.lines_read, state.s),
        (OpenE::default(), 6, 3)
    );
}

/// E writes FEIN, 0, 0, the flags and the date after the employers and opens with no id in use.
#[test]
fn an_employer_in_an_altered_walk() {
    for (amended, date) in [(0, 0), (1, 0), (0, 1_012_026), (1, 3_312_026)] {
        let (mut state, mut ids, mut list) = e_open();
        state.standing = Standing::Among(Phase::AfterT);
        let mut e = record_e(Q1, 8, false, &AUGUSTA);
        put_number(&mut e, 187, 187, amended);
        if date != 0 {
            put_final(&mut e, date);
        }
        let answer = walk::line(&mut state, &mut ids, &mut list, &with_end(e));
        // The entry after the employers is no earlier E.
        assert_eq!(answer.refusal, None);
        let taken = Entry::plain(8, 0, 0).of_kind(amended, u64::from(date != 0), date);
        assert_eq!(list, [OF_E_OPEN[0], OF_E_OPEN[1], taken]);
        assert_eq!(ids, [21, 22, 23, 24]);
        let open = OpenE {
            fein: 8,
            ..OpenE::default()
        };
        assert_eq!((state.open, state.employers), (open, 3));
    }
}

/// S writes one id after those in use; one of them again is 53, and zeroes all.
#[test]
fn an_employee_in_an_altered_walk() {
    let (mut state, mut ids, mut list) = e_open();
    let bytes = with_end(record_s(Q1, 77, 23, 50));
    let answer = walk::line(&mut state, &mut ids, &mut list, &bytes);
    assert_eq!(answer.refusal, None);
    assert_eq!(ids, [21, 22, 23, 24]);
    assert_eq!((state.s, state.cents), (4, 1_050));
    assert_eq!(
        (state.open.s, state.open.cents, state.open.ids_in_use),
        (3, 950, 3)
    );
    let answer = walk::line(&mut state, &mut ids, &mut list, &bytes);
    let wanted = Refusal::new(53, 7, 2);
    assert_eq!((answer.taken, answer.refusal), (0, Some(wanted)));
    assert_eq!((ids, list), (vec![0; 4], vec![Entry::default(); 3]));
    assert_eq!(state.standing, Standing::Refused(wanted));
    assert_eq!((state.lines_read, state.employers, state.s), (0, 0, 0));
    assert_eq!(
        (state.held, state.open),
        (Quarter::default(), OpenE::default())
    );
}

/// 14: "A line call that is lent no bytes is a line of length 0, so 1 at column 1".
#[test]
fn a_line_of_no_bytes() {
    let (mut state, mut ids, mut list) = e_open();
    let answer = walk::line(&mut state, &mut ids, &mut list, b"");
    assert_eq!(answer.refusal, Some(Refusal::new(1, 6, 1)));
}
