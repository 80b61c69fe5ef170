//! The table of places (2.1), cell by cell.

use super::*;

/// What may stand before a record in each phase, all ways of it that differ.
const PHASES: [(&str, &[&[u8]]); 6] = [
    ("before A", &[b""]),
    ("after A", &[b"A"]),
    (
        "E open, says 1",
        &[b"AE", b"AES", b"AER", b"AESR", b"AERS", b"A0E", b"A0TESS"],
    ),
    (
        "E open, says 0",
        &[b"A0", b"A0R", b"A00", b"AEST0", b"A0RR"],
    ),
    ("after T", &[b"A0T", b"AEST", b"A0RT", b"A00T", b"AESRT"]),
    ("after F", &[b"A0F", b"A0TF", b"AESTF", b"A0RF"]),
];

/// The rows in the same order; the columns are A, E, S, R, T, F and the end of the input. 0 is ok,
/// or acceptance.
const TABLE: [[u8; 7]; 6] = [
    [0, 10, 10, 10, 10, 10, 5],
    [11, 0, 12, 12, 13, 14, 6],
    [11, 15, 0, 0, 0, 17, 7],
    [11, 0, 16, 0, 0, 0, 7],
    [11, 0, 12, 12, 18, 0, 8],
    [11, 20, 20, 20, 20, 19, 0],
];

/// A file of these letters, with totals that are right; `0` is an E that says 0.
fn file_of(letters: &[u8]) -> Vec<u8> {
    let mut draft = Draft::new(HELD, FILED);
    for letter in letters {
        draft.push(match letter {
            b'A' => a(),
            b'E' => e1(),
            b'0' => e0(),
            b'S' => s(7, 8),
            b'R' => r(),
            b'T' => t(0, 5, 0, 0),
            b'B' => with(a(), 1, b"B"),
            _ => f(0, 0, 0),
        });
    }
    draft.total();
    draft.file()
}

fn found(letters: &[u8]) -> Outcome {
    told_with(EDITION, HELD, ack::EMPLOYERS, &file_of(letters))
}

/// Each record behind each way to stand in a phase. Where it is ok the file goes on, so that only its
/// end can be refused, or a T that counts no S.
#[test]
fn cell_by_cell() {
    for ((name, ways), row) in PHASES.into_iter().zip(TABLE) {
        for way in ways {
            for (letter, number) in b"AESRTF".iter().zip(row) {
                let letters = [way, &[*letter][..]].concat();
                let line = letters.len() as u64;
                let is_there = |refusal: &Refusal| refusal.line == line && refusal.column == 1;
                let at_place = match found(&letters) {
                    Outcome::Refused(refusal) if is_there(&refusal) => refusal.number,
                    _ => 0,
                };
                assert_eq!(
                    at_place,
                    number,
                    "{name}: {}",
                    String::from_utf8_lossy(&letters)
                );
            }
        }
    }
}

/// "Lines of the end's refusal: lines read + 1, column 1."
#[test]
fn ends_of_input() {
    for ((name, ways), row) in PHASES.into_iter().zip(TABLE) {
        for way in ways {
            match row[6] {
                0 => assert!(matches!(found(way), Outcome::Accepted(_)), "{name}"),
                number => assert_eq!(
                    found(way),
                    refused(number, way.len() as u64 + 1, 1),
                    "{name}"
                ),
            }
        }
    }
}

/// "B is 4 in every phase, also before A and after F."
#[test]
fn b_is_no_letter() {
    for (_, ways) in PHASES {
        for way in ways {
            let letters = [way, &b"B"[..]].concat();
            assert_eq!(found(&letters), refused(4, letters.len() as u64, 1));
        }
    }
}

/// An E saying 0 counts in F, with T and without, and its entry stays FEIN, 0, 0.
#[test]
fn an_e_saying_0_counts() {
    let Outcome::Accepted(accepted) = found(b"A00TEST0RF") else {
        panic!("it is accepted");
    };
    let none = Entry::plain(FEIN, 0, 0);
    assert_eq!(
        accepted.entries,
        [none, none, Entry::plain(FEIN, 1, 8), none]
    );
    assert_eq!(
        (accepted.s_count, accepted.e_count, accepted.cents),
        (1, 4, 8)
    );
}
