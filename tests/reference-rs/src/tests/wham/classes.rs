//! The classes of 1.2, each at its bounds, in fields that have it.

use super::*;

/// The first worked case: A, E, S, S, R, T, F.
const A: usize = 0;
const E: usize = 1;
const S: usize = 2;
const R: usize = 4;
const T: usize = 5;
const F: usize = 6;

fn records() -> Vec<Vec<u8>> {
    vec![
        a(),
        e1(),
        s(100_000, 123_456),
        s(50, 44),
        r(),
        t(2, 100_050, 100_050, 123_500),
        f(2, 1, 123_500),
    ]
}

/// What the file gets with these texts in one record.
fn put(place: usize, changes: &[(usize, &[u8])]) -> Outcome {
    let mut records = records();
    for (column, text) in changes {
        records[place] = with(records[place].clone(), *column, text);
    }
    told(&records)
}

fn passes(place: usize, column: usize, text: &[u8]) {
    let found = put(place, &[(column, text)]);
    assert!(matches!(found, Outcome::Accepted(_)), "{column}: {found:?}");
}

/// Refused at that record, with this number, at this column.
fn gives(place: usize, column: usize, text: &[u8], number: u8, at: u64) {
    let found = put(place, &[(column, text)]);
    assert_eq!(found, refused(number, place as u64 + 1, at));
}

/// "any of hex 20 to 7E passes, nothing is read"
#[test]
fn ignored() {
    for (letter, first, last) in IGNORED {
        let place = records().iter().position(|r| r[0] == letter).unwrap();
        for c in [0x20, 0x7E] {
            passes(place, first, &vec![c; last + 1 - first]);
        }
        for c in [0x1F, 0x7F] {
            gives(place, last, &[c], 3, last as u64);
        }
    }
}

/// "none (one column of text that may be blank)"
#[test]
fn any() {
    for c in 0x20..=0x7E {
        passes(S, 43, &[c]);
    }
    gives(S, 43, b"\x7F", 3, 43);
}

/// "all digits, else 30 at the first that is not. A blank, a hyphen or a point is no digit"
#[test]
fn number() {
    for text in [b"0000000000", b"9999999999"] {
        passes(A, 194, text);
    }
    passes(E, 225, b"9999");
    for c in [b'/', b':', b' ', b'-', b'.'] {
        gives(A, 194, &[c], 30, 194);
        gives(A, 203, &[c], 30, 203);
        gives(E, 225, &[c], 30, 225);
        gives(F, 11, &[c], 30, 11);
    }
    gives(A, 197, b"-1-", 30, 197);
}

/// "as number; whole cents"
#[test]
fn money() {
    passes(R, 19, b"000000000");
    passes(R, 19, b"999999999");
    for column in [19, 27] {
        gives(R, column, b" ", 30, column as u64);
    }
    for column in [191, 202, 203, 214] {
        gives(S, column, b"-", 30, column as u64);
    }
}

/// "first column a digit or hyphen (hex 2D), every other column a digit [...] minus zero is zero"
#[test]
fn signed() {
    let due = |payments: &[u8], due: &[u8]| put(T, &[(112, payments), (123, due)]);
    let zero = b"00000123500";
    for text in [b"-0000000000000", b"00000000000000"] {
        assert!(matches!(due(zero, text), Outcome::Accepted(_)));
    }
    let more = b"00000123501";
    assert!(matches!(due(more, b"-0000000000001"), Outcome::Accepted(_)));
    assert_eq!(due(more, b"00000000000001"), refused(57, 6, 123));
    for text in [b"'0000000000001", b"+0000000000001", b" 0000000000001"] {
        assert_eq!(due(more, text), refused(30, 6, 123));
    }
    assert_eq!(due(more, b"--000000000001"), refused(30, 6, 124));
    assert_eq!(due(more, b"-000000000000-"), refused(30, 6, 136));
}

/// "all blank 32; first column blank otherwise 33"
#[test]
fn required() {
    for (place, first, last) in [(A, 24, 73), (E, 114, 138), (S, 11, 30), (S, 31, 42)] {
        let width = last + 1 - first;
        let mut text = vec![b' '; width];
        gives(place, first, &text, 32, first as u64);
        text[width - 1] = b'.';
        gives(place, first, &text, 33, first as u64);
        text[0] = b'!';
        passes(place, first, &text);
    }
}

/// "all blank passes; first column blank otherwise 33"
#[test]
fn optional() {
    passes(A, 204, b"    ");
    passes(A, 204, b"1   ");
    gives(A, 204, b"   1", 33, 204);
    gives(A, 204, b" 123", 33, 204);
}

/// "all blank 32 if this line's 209-217 isn't zero (passes if it is); first column blank otherwise
/// 33"
#[test]
fn licence() {
    passes(E, 209, b"000000000       ");
    passes(E, 209, b"000000000PPA1234");
    passes(E, 209, b"000000001P      ");
    gives(E, 209, b"000000001       ", 32, 218);
    gives(E, 209, b"900000000       ", 32, 218);
    gives(E, 209, b"000000000      1", 33, 218);
    gives(E, 209, b"000000001 PA1234", 33, 218);
}

/// "2024: as required."
#[test]
fn account() {
    let both = |account: &[u8; 11]| {
        let mut records = records();
        records[E] = with(records[E].clone(), 258, account);
        for place in [S, S + 1] {
            records[place] = with(records[place].clone(), 215, account);
        }
        told(&records)
    };
    for account in [
        b"1          ",
        b"1234-5678  ",
        b"1         2",
        b"~~~~~~~~~~~",
    ] {
        assert!(matches!(both(account), Outcome::Accepted(_)));
    }
    assert_eq!(both(b"           "), refused(32, 2, 258));
    assert_eq!(both(b"          1"), refused(33, 2, 258));
    gives(S, 215, b"           ", 32, 215);
    gives(S, 215, b" 2345678900", 33, 215);
    gives(S, 225, b"1", 46, 215);
}

/// "WHAM, else 34"
#[test]
fn entity() {
    for (place, first) in [(A, 15), (E, 167), (S, 143), (T, 9), (F, 22)] {
        passes(place, first, b"wHaM");
        for code in [b"WHAN", b"WHAL", b"VHAM", b"PFML", b"    "] {
            gives(place, first, code, 34, first as u64);
        }
    }
}

/// The 64 codes as the rule list prints them, states and then provinces.
const CODES: &str =
    "AL AK AZ AR CA CO CT DE DC FL GA HI ID IL IN IA KS KY LA ME MD MA MI MN MS MO \
    MT NE NV NH NJ NM NY NC ND OH OK OR PA RI SC SD TN TX UT VT VA WA WV WI WY";
const PROVINCES: &str = "AB BC MB NB NL NS NT NU ON PE QC SK YT";

/// "one of the 64 codes below, else 35"
#[test]
fn state() {
    let mut known = 0;
    for first in b'A'..=b'Z' {
        for second in b'A'..=b'Z' {
            let code = String::from_utf8(vec![first, second]).unwrap();
            let in_province = PROVINCES.split(' ').any(|own| own == code);
            let in_state = CODES.split(' ').any(|own| own == code);
            let zip: &[u8] = if in_province {
                b"K1A 0B1   "
            } else {
                b"04330     "
            };
            let found = put(A, &[(139, code.as_bytes()), (154, zip)]);
            if in_province || in_state {
                known += 1;
                assert!(matches!(found, Outcome::Accepted(_)), "{code}");
            } else {
                assert_eq!(found, refused(35, 1, 139), "{code}");
            }
        }
    }
    assert_eq!(known, 64);
    gives(E, 139, b"  ", 35, 139);
    passes(E, 139, b"me");
}

/// "with a state five digits, with a province letter, digit, letter, blank, digit, else 36"
#[test]
fn zip() {
    for text in [b"00000", b"99999"] {
        passes(A, 154, text);
    }
    for text in [b"K1A 0", b"0433 ", b"0433/", b":4330"] {
        gives(A, 154, text, 36, 154);
    }
    let province = |zip: &[u8]| put(A, &[(139, b"ON"), (154, zip), (159, b"B1   ")]);
    for zip in [b"K1A 0", b"a9z 9"] {
        assert!(matches!(province(zip), Outcome::Accepted(_)));
    }
    for zip in [
        b"K1A0 ", b"K1A-0", b"@1A 0", b"K1[ 0", b"K/A 0", b"K1A :", b"04330",
    ] {
        assert_eq!(province(zip), refused(36, 1, 154));
    }
}

/// "with a state five blanks or hyphen and four digits, with a province letter, digit, three blanks,
/// else 37 (so a blank extension of a province is 37)"
#[test]
fn extension() {
    for text in [b"     ", b"-0000", b"-9999"] {
        passes(E, 149, text);
    }
    for text in [b"-000 ", b"'1061", b"01061", b"-106:", b"B1   "] {
        gives(E, 149, text, 37, 149);
    }
    let province = |text: &[u8]| put(E, &[(139, b"qc"), (149, text), (154, b"H1A 0")]);
    for text in [b"B1   ", b"z9   "] {
        assert!(matches!(province(text), Outcome::Accepted(_)));
    }
    for text in [b"     ", b"-1061", b"B1  X", b"1B   ", b"[1   ", b" B1  "] {
        assert_eq!(province(text), refused(37, 2, 149));
    }
}

/// "number (30), then not 23: 35"
#[test]
fn maine() {
    for (place, first) in [(E, 171), (S, 44)] {
        for code in [b"22", b"24", b"13", b"33", b"00", b"99"] {
            gives(place, first, code, 35, first as u64);
        }
        gives(place, first, b"ME", 30, first as u64);
        gives(place, first, b"2 ", 30, first as u64 + 1);
    }
}

/// "03, 06, 09 or 12, else 40 (in place of 30)"
#[test]
fn month() {
    for month in 0..100 {
        let text = format!("{month:02}");
        let found = put(S, &[(46, text.as_bytes())]);
        match month {
            3 => assert!(matches!(found, Outcome::Accepted(_))),
            6 | 9 | 12 => assert_eq!(found, refused(43, 3, 46)),
            _ => assert_eq!(found, refused(40, 3, 46)),
        }
    }
    for text in [b"  ", b" 3", b"0A", b"3 "] {
        gives(S, 46, text, 40, 46);
        gives(E, 188, text, 40, 188);
    }
}

/// "0 or 1, else 47 (in place of 30)"
#[test]
fn flag() {
    for c in 0x20..=0x7E {
        match c {
            b'1' => passes(E, 190, &[c]),
            b'0' => assert_eq!(put(E, &[(190, b"0")]), refused(16, 3, 1)),
            _ => gives(E, 190, &[c], 47, 190),
        }
    }
}

/// "number (30)"; that A's is 39 above the held year, and E's and S's 42 unless A's, looks elsewhere.
#[test]
fn year() {
    assert!(is_accepted(&[
        with(a(), 2, b"0000"),
        with(e0(), 2, b"0000"),
        f(0, 1, 0)
    ]));
    gives(A, 2, b"2027", 39, 2);
    gives(E, 2, b"2025", 42, 2);
    gives(S, 48, b"2023", 42, 48);
    for (place, first) in [(A, 2), (E, 2), (S, 48)] {
        gives(place, first, b"20 4", 30, first as u64 + 2);
        gives(place, first, b"202:", 30, first as u64 + 3);
    }
}

/// "number (30); begins with 69: 44, in 2020 only; nine zeros pass"
#[test]
fn fein() {
    for (place, first) in [(A, 6), (E, 6)] {
        for fein in [b"000000000", b"690000000", b"999999999"] {
            passes(place, first, fein);
        }
        gives(place, first, b"69000000-", 30, first as u64 + 8);
    }
    let found = put(E, &[(209, b"690000000"), (218, b"PPA1234")]);
    assert!(matches!(found, Outcome::Accepted(_)));
    gives(E, 209, b"6900 0000", 30, 213);
}

/// "number (30), 52"
#[test]
fn identity() {
    for id in [b"000000000", b"899999999", b"666000001", b"111111111"] {
        passes(S, 2, id);
    }
    for id in [b"900000000", b"999999999", b"900700001"] {
        gives(S, 2, id, 52, 2);
    }
    gives(S, 2, b"9A0000000", 30, 3);
    gives(S, 2, b"90000000O", 30, 10);
}

/// "number (30)"; that it is the quarter's last day (91) looks elsewhere.
#[test]
fn date() {
    passes(R, 2, b"03312024");
    gives(R, 2, b"03302024", 91, 2);
    gives(R, 2, b"04012024", 91, 2);
    gives(R, 2, b"03312025", 91, 2);
    gives(R, 2, b"0331202X", 30, 9);
    gives(R, 2, b" 3312024", 30, 2);
}
