//! The kinds of return in entries and frames: the worked examples of document 02 (xiii).
//!
//! B is document 01's example as a file of June 2026; D has a second employer, whose return is final.

use crate::ack::{answer, outcome, ROOM};
use crate::calendar::{Date, Quarter};
use crate::draft::*;
use crate::edits::Refusal;
use crate::format::Format;
use crate::meaning::{Accepted, Entry, Outcome, Room};
use crate::tables::Tables;
use crate::walk;

const HELD: Quarter = Quarter::new(2026, 6);

fn first_of_d() -> Employer {
    Employer {
        fein: 12_345_678,
        employees: vec![(111_223_333, 123_456), (0, 44)],
    }
}

fn b_of(held: Quarter, quarter: Quarter) -> Draft {
    tidy(held, quarter, &[first_of_d()])
}

fn d() -> Draft {
    let second = Employer {
        fein: 700_000_000,
        employees: vec![
            (111_223_333, 845_000),
            (223_445_555, 1_310_075),
            (334_556_666, 99_990),
        ],
    };
    let mut draft = tidy(HELD, HELD, &[first_of_d(), second]);
    assert_eq!(draft.lines.len(), 11);
    draft.lines[5].put(282, b"106302026");
    draft
}

/// The file with other bytes in its first E, from some columns on.
fn with(mut draft: Draft, changes: &[(usize, &[u8])]) -> Draft {
    for (column, text) in changes {
        draft.lines[1].put(*column, text);
    }
    draft
}

/// The lines of the program's answer.
fn lines_of_answer(draft: &Draft) -> Vec<String> {
    let output = String::from_utf8(answer(&draft.input())).unwrap();
    output.lines().map(str::to_string).collect()
}

#[test]
fn frames_of_each_kind() {
    let (june, march) = (HELD, Quarter::new(2026, 3));
    let zero = zero_return(june, june);
    for (name, draft, frame) in [
        (
            "B",
            b_of(june, june),
            "0200BC614E00000002000000000001E26C000000000000",
        ),
        (
            "B amended",
            with(b_of(june, june), &[(187, b"1")]),
            "0200BC614E00000002000000000001E26C010000000000",
        ),
        (
            "B final, and not closed",
            with(b_of(march, june), &[(282, b"105152026")]),
            "0200BC614E00000002000000000001E26C0001004E9D1A",
        ),
        (
            "a zero return, final",
            with(zero, &[(282, b"106302026")]),
            "0200BC614E00000000000000000000000000010060294A",
        ),
    ] {
        let lines = lines_of_answer(&draft);
        assert_eq!(lines.len(), 2, "{name}");
        assert_eq!(lines[0], frame, "{name}");
        assert_eq!(lines[0].len(), 46);
    }
}

#[test]
fn frames_of_two_employers() {
    let wanted = [
        "0200BC614E00000002000000000001E26C000000000000",
        "0229B927000000000300000000002268D900010060294A",
        "0000000005000000020000000000244B45",
    ];
    assert_eq!(lines_of_answer(&d()), wanted);
    assert_eq!(answer(&d().input()).len(), 47 * 2 + 35);
}

/// In a closed quarter, and in the current one.
#[test]
fn amended_and_final() {
    let december = Quarter::new(2026, 12);
    for held in [december, Quarter::new(2026, 9)] {
        let draft = with(b_of(held, december), &[(187, b"1"), (282, b"112312026")]);
        let lines = lines_of_answer(&draft);
        let wanted = "0200BC614E00000002000000000001E26C010100BBDDDA";
        assert_eq!(lines[0], wanted);
    }
}

/// After each line of D, and a line that is refused: "At E: FEIN, 0, 0, amended, final, date. At T:
/// count and cents; the rest stays. Opening and every refusal [...] zero all six, of every entry".
#[test]
fn entries_from_line_to_line() {
    let room = Room {
        ids: 3,
        employers: 3,
    };
    let some = Entry::plain(1, 2, 3).of_kind(4, 5, 6);
    let mut tables = Tables::zero(room);
    tables.list.fill(some);
    let (ids, list) = tables.lend(room);
    let (mut state, answer) = walk::open(Format::Pfml, HELD, ids, list);
    let none = Entry::default();
    assert_eq!((answer, &list[..]), (None, &[none; 3][..]));
    let first = |count, cents| Entry::plain(12_345_678, count, cents).of_kind(1, 0, 0);
    let second = |count, cents| Entry::plain(700_000_000, count, cents).of_kind(0, 1, 6_302_026);
    let draft = with(d(), &[(187, b"1")]);
    for (place, line) in draft.lines.iter().enumerate() {
        let bytes = [&line.text[..], b"\n"].concat();
        let answer = walk::line(&mut state, ids, list, &bytes);
        assert_eq!(answer.refusal, None);
        let wanted = match place {
            0 => [none; 3],
            1..=3 => [first(0, 0), none, none],
            4 => [first(2, 123_500), none, none],
            5..=8 => [first(2, 123_500), second(0, 0), none],
            _ => [first(2, 123_500), second(3, 2_255_065), none],
        };
        assert_eq!(list, wanted, "after line {}", place + 1);
    }
    // After 70, 71 and 72 every entry is as it was; after a refusal of the file all are zero.
    assert_eq!(walk::end(&mut state, ids, list), None);
    let wanted = [first(2, 123_500), second(3, 2_255_065), some];
    list[2] = some;
    let refused = |number| Some(Refusal::new(number, 0, 0));
    assert_eq!(walk::end(&mut state, ids, list), refused(71));
    assert_eq!(walk::end(&mut state, ids, &mut list[..1]), refused(72));
    let bad = Quarter::new(2026, 5);
    assert_eq!(walk::open(Format::Pfml, bad, ids, list).1, refused(70));
    assert_eq!(list, wanted);
    let (_, answer) = walk::whole(Format::Pfml, HELD, ids, list, b"A\n");
    assert_eq!(
        (answer, &list[..]),
        (Some(Refusal::new(1, 1, 2)), &[none; 3][..])
    );
}

/// D's employers by their places; there is no third.
#[test]
fn employers_by_place() {
    let Outcome::Accepted(Accepted { entries, .. }) = outcome(&d().input()) else {
        panic!("D is accepted");
    };
    let second = Entry::plain(700_000_000, 3, 2_255_065).of_kind(0, 1, 6_302_026);
    assert_eq!(entries.get(1), Some(&second));
    assert_eq!(entries.get(2), None);
    assert!(entries.len() <= ROOM.employers);
}

/// A date as a number, and in four bytes of a frame.
#[test]
fn dates_as_numbers() {
    for (date, bytes, is_one) in [
        (5_152_026, "004E9D1A", true),
        (6_302_026, "0060294A", true),
        (12_312_026, "00BBDDDA", true),
        (3_312_026, "0032899A", true),
        (2_302_026, "0023204A", false),
        (13_012_026, "00C68C3A", false),
        (2_290_000, "0022F150", true),
        (4_294_967_295, "FFFFFFFF", false),
        (0, "00000000", false),
    ] {
        assert_eq!(format!("{date:08X}"), bytes);
        assert_eq!(Date::from_number(date).is_in_calendar(), is_one, "{date}");
    }
}
