//! The paper's examples, and readings that an example can show.

use super::{refused, Q1};
use crate::ack::{answer, outcome, ROOM};
use crate::calendar::Quarter;
use crate::draft::*;
use crate::meaning::{acknowledge, Accepted, Entry, Outcome};
use crate::tally;

fn is_accepted(draft: &Draft) -> bool {
    matches!(outcome(&draft.input()), Outcome::Accepted(_))
}

fn number_of(draft: &Draft) -> u8 {
    tally::number_of(&outcome(&draft.input()))
}

/// The example file with one change in one line (counted from 1).
fn with(line: usize, column: usize, text: &[u8]) -> Draft {
    let mut draft = example(Q1, Q1);
    draft.lines[line - 1].put(column, text);
    draft
}

// The frames.

/// "Example: FEIN 012345678, two employees with 1,234.56 and 0.44", with the employer frame of
/// document 02 (xiii).
#[test]
fn frames_of_an_accepted_file() {
    let wanted = "0200BC614E00000002000000000001E26C000000000000\n\
                  000000000200000001000000000001E26C\n";
    assert_eq!(answer(&example(Q1, Q1).input()), wanted.as_bytes());
}

/// "Reason 52 at line 3, column 2: `FF34000000030002`."
#[test]
fn frame_of_a_refused_file() {
    let draft = with(3, 2, b"666000001");
    assert_eq!(answer(&draft.input()), b"FF34000000030002\n");
}

/// "the output bound becomes 47 bytes for each employer and 35 more"
#[test]
fn longest_output() {
    let output = answer(&example(Q1, Q1).input());
    assert_eq!(output.len(), 47 + 35);
}

/// "six digits YYYYMM of the last closed quarter and LF (else 70 [...])"
#[test]
fn headers() {
    let refusal = b"FF46000000000000\n";
    for input in [
        &b""[..],
        b"202603",
        b"202603\r\n",
        b"20263\n",
        b"202403\n",
        b"202604\n",
        b"202600\n",
        b" 02603\n",
        b"2026-3\n",
    ] {
        assert_eq!(answer(input), refusal, "{input:?}");
    }
    assert_eq!(answer(b"999912\n"), b"FF05000000010001\n");
}

/// Two employers, one of them a zero return: an entry for each.
#[test]
fn entries_in_file_order() {
    let employers = [
        Employer {
            fein: 900_000_000,
            employees: vec![(7, 100), (8, 23)],
        },
        Employer {
            fein: 5,
            employees: Vec::new(),
        },
        Employer {
            fein: 6,
            employees: vec![(7, MOST_WAGES)],
        },
    ];
    let wanted = Accepted {
        entries: vec![
            Entry::plain(900_000_000, 2, 123),
            Entry::plain(5, 0, 0).of_kind(1, 1, 3_312_026),
            Entry::plain(6, 1, MOST_WAGES).of_kind(0, 1, 1_012_026),
        ],
        s_count: 3,
        e_count: 3,
        cents: 100_000_000_000_122,
    };
    let mut draft = tidy(Q1, Q1, &employers);
    let e = draft.places(b'E');
    draft.lines[e[1]].put(187, b"1");
    draft.lines[e[1]].put(282, b"103312026");
    draft.lines[e[2]].put(282, b"101012026");
    assert_eq!(outcome(&draft.input()), Outcome::Accepted(wanted));
}

// "Checked by hand"

/// "a. Empty file: 5 at line 1, column 1."
#[test]
fn a_empty_file() {
    assert_eq!(acknowledge(Q1, ROOM, b""), refused(5, 1, 1));
}

/// "b. 289 characters: 1 at 290. c. 291: 1 at 291."
#[test]
fn b_and_c_lengths() {
    for (length, column) in [(289, 290), (291, 291)] {
        for end in ENDS {
            let mut draft = example(Q1, Q1);
            draft.lines[0].text.resize(length, b' ');
            draft.lines[0].end = end.to_vec();
            assert_eq!(outcome(&draft.input()), refused(1, 1, column));
        }
    }
}

/// "d. LF CR after a record: next line empty, 1 at 1."
#[test]
fn d_line_feed_and_return() {
    let mut draft = example(Q1, Q1);
    draft.lines[0].end = b"\n\r".to_vec();
    assert_eq!(outcome(&draft.input()), refused(1, 2, 1));
}

fn ceased(quarter: Quarter, date: &[u8]) -> u8 {
    let mut draft = example(Quarter::new(9999, 12), quarter);
    draft.lines[1].put(282, b"1");
    draft.lines[1].put(283, date);
    number_of(&draft)
}

/// "e. 02292028 is a date; 02292027 isn't."
#[test]
fn e_leap_days() {
    assert_eq!(ceased(Quarter::new(2028, 3), b"02292028"), 0);
    assert_eq!(ceased(Quarter::new(2027, 3), b"02292027"), 48);
}

/// "f. Quarter 03 of 2026 holds 03312026, not 04012026."
#[test]
fn f_last_day_of_a_quarter() {
    assert_eq!(ceased(Q1, b"03312026"), 0);
    assert_eq!(ceased(Q1, b"04012026"), 49);
}

/// "g. FEIN 690000000: 44; 700000000 passes."
#[test]
fn g_fein() {
    assert_eq!(
        outcome(&with(1, 6, b"690000000").input()),
        refused(44, 1, 6)
    );
    assert!(is_accepted(&with(1, 6, b"700000000")));
    for (fein, number) in [(b"690000000", 44), (b"700000000", 0)] {
        let mut draft = with(2, 6, fein);
        draft.lines[2].put(147, fein);
        draft.lines[3].put(147, fein);
        draft.lines[4].put(13, fein);
        assert_eq!(number_of(&draft), number);
    }
}

/// Document 02 (iii), a FEIN of nine zeros: 64 in A and E; in S and T it is not the open E's.
#[test]
fn nine_zeros() {
    let zeros = b"000000000";
    for (line, column, number) in [(1, 6, 64), (2, 6, 64), (3, 147, 46), (5, 13, 46)] {
        assert_eq!(
            outcome(&with(line, column, zeros).input()),
            refused(number, line as u64, column as u64)
        );
    }
}

/// "h. 665999999 passes; 666000001: 52."
#[test]
fn h_identity_numbers() {
    assert!(is_accepted(&with(3, 2, b"665999999")));
    assert_eq!(
        outcome(&with(3, 2, b"666000001").input()),
        refused(52, 3, 2)
    );
}

/// Document 02 (i): "Such a number passes when its fourth and fifth digits are 50 to 65, 70 to 88, 90
/// to 92 or 94 to 99 [...] Otherwise it is refused as before." The digits beside them do not count.
#[test]
fn identity_numbers_with_nine_in_front() {
    let passing: Vec<u64> = (50..=65)
        .chain(70..=88)
        .chain(90..=92)
        .chain(94..=99)
        .collect();
    assert_eq!(passing.len(), 16 + 19 + 3 + 6);
    for digits in 0..100 {
        for (front, behind) in [("900", "0000"), ("966", "6700"), ("999", "9999")] {
            let draft = with(3, 2, format!("{front}{digits:02}{behind}").as_bytes());
            match passing.contains(&digits) {
                true => assert!(is_accepted(&draft), "{digits}"),
                false => assert_eq!(outcome(&draft.input()), refused(52, 3, 2), "{digits}"),
            }
        }
    }
}

/// "i. 000000000 twice under one E passes."
#[test]
fn i_applied_for() {
    let mut draft = with(3, 2, b"000000000");
    draft.lines[3].put(2, b"000000000");
    assert!(is_accepted(&draft));
}

/// "j. `K1A 0` passes with ON, 36 with ME."
#[test]
fn j_canadian_code() {
    for line in [1, 2] {
        let mut draft = with(line, 139, b"ON");
        draft.lines[line - 1].put(154, b"K1A 0");
        draft.lines[line - 1].put(if line == 1 { 159 } else { 149 }, b"B1   ");
        assert!(is_accepted(&draft));
        let draft = with(line, 154, b"K1A 0");
        assert_eq!(outcome(&draft.input()), refused(36, line as u64, 154));
    }
}

/// "k. `-1061` passes with ME."
#[test]
fn k_extension() {
    assert!(is_accepted(&with(1, 159, b"-1061")));
    assert!(is_accepted(&with(2, 149, b"-1061")));
}

/// "l. `O'NEIL-ROY` passes; `ANNE2`: 54 at its fifth column."
#[test]
fn l_names() {
    for (first, width) in [(11, 20), (31, 12)] {
        let mut name = b"O'NEIL-ROY".to_vec();
        name.resize(width, b' ');
        assert!(is_accepted(&with(3, first, &name)));
        let mut name = b"ANNE2".to_vec();
        name.resize(width, b' ');
        let wanted = refused(54, 3, first as u64 + 4);
        assert_eq!(outcome(&with(3, first, &name).input()), wanted);
    }
}

// "Easy to get wrong", and readings.

#[test]
fn easy_to_get_wrong() {
    // "Matching F against the sum of T fields alone, with T never compared with S."
    let mut draft = with(5, 27, b"00000000000001");
    draft.lines[5].put(41, b"000000000000001");
    assert_eq!(outcome(&draft.input()), refused(57, 5, 27));
    // "Keeping ids across employers: one person may work for two."
    let employ = |fein| Employer {
        fein,
        employees: vec![(7, 1)],
    };
    assert!(is_accepted(&tidy(Q1, Q1, &[employ(1), employ(2)])));
    // "Reading a blank phone number as zero."
    assert_eq!(
        outcome(&with(1, 194, b"          ").input()),
        refused(30, 1, 194)
    );
    assert_eq!(
        outcome(&with(2, 261, b"          ").input()),
        refused(30, 2, 261)
    );
}

/// Decisions 1 to 12, where an example can show them.
#[test]
fn readings_of_fields() {
    assert_eq!(
        outcome(&with(3, 2, b"9A0000000").input()),
        refused(30, 3, 3)
    );
    assert_eq!(
        outcome(&with(1, 6, b"69111111A").input()),
        refused(30, 1, 14)
    );
    assert_eq!(outcome(&with(1, 19, b"0A").input()), refused(40, 1, 19));
    assert_eq!(outcome(&with(1, 15, b"    ").input()), refused(34, 1, 15));
    assert_eq!(outcome(&with(1, 139, b"  ").input()), refused(35, 1, 139));
    assert_eq!(
        outcome(&with(1, 154, b"     ").input()),
        refused(36, 1, 154)
    );
    assert!(is_accepted(&with(1, 159, b"     ")));
    let mut province = with(1, 139, b"ON");
    province.lines[0].put(154, b"K1A 0     ");
    assert_eq!(outcome(&province.input()), refused(37, 1, 159));
    assert_eq!(
        outcome(&with(2, 173, b" 123456789").input()),
        refused(30, 2, 173)
    );
    assert!(is_accepted(&with(2, 191, b"~")));
    assert_eq!(ceased(Q1, b"02290000"), 49);
    assert_eq!(
        outcome(&with(3, 147, b"690000000").input()),
        refused(46, 3, 147)
    );
}

/// "a to z read as A to Z everywhere, the record letter included"
#[test]
fn small_letters() {
    let mut draft = example(Q1, Q1);
    for line in &mut draft.lines {
        line.text.make_ascii_lowercase();
    }
    assert!(is_accepted(&draft));
}
