//! Texts, accounts, licences, entity codes, state codes, flags, identity numbers and FEINs.

use super::{refused, refused_at, tidy_example, List, A, E, F, FILED, HELD, S, T};
use crate::draft::put;
use crate::gen::Meant;
use crate::wham::draft::*;

pub fn add(list: &mut List) {
    list.name("texts");
    texts(list);
    initials(list);
    list.name("accounts");
    accounts(list);
    list.name("licences");
    licences(list);
    list.name("entity codes");
    entity_codes(list);
    list.name("state codes");
    state_codes(list);
    list.name("flags");
    flags(list);
    list.name("identity numbers");
    identity_numbers(list);
    list.name("feins");
    feins(list);
}

/// The texts: line, first and last column, whether they are required.
const TEXTS: [(usize, usize, usize, bool); 11] = [
    (A, 24, 73, true),
    (A, 74, 113, true),
    (A, 114, 138, true),
    (A, 164, 193, true),
    (A, 204, 207, false),
    (E, 24, 73, true),
    (E, 74, 113, true),
    (E, 114, 138, true),
    (E, 218, 224, false),
    (S, 11, 30, true),
    (S, 31, 42, true),
];

/// Texts of one character, in the first or the last column; full ones; none. Any character may
/// stand in a text.
fn texts(list: &mut List) {
    for (place, first, last, required) in TEXTS {
        let width = last + 1 - first;
        let blanks = vec![b' '; width];
        let (mut only_first, mut only_last) = (blanks.clone(), blanks.clone());
        only_first[0] = b'X';
        only_last[width - 1] = b'X';
        let none = match required {
            true => refused_at(32, place, first),
            false => Meant::Accepted,
        };
        list.put(place, first, &blanks, none);
        list.put(place, first, &only_first, Meant::Accepted);
        list.put(place, first, &only_last, refused_at(33, place, first));
        for c in *b"X0'.~!&" {
            list.put(place, first, &vec![c; width], Meant::Accepted);
        }
    }
    for name in [&b"ANNE 2ND."[..], b"O'NEIL-ROY", b"(ANNE)", b"12345"] {
        list.put(S, 31, name, Meant::Accepted);
    }
}

/// One column of text that may be blank.
fn initials(list: &mut List) {
    for c in 0x20..=0x7E {
        list.put(S, 43, &[c], Meant::Accepted);
    }
}

/// The example with these accounts in E and in both S records.
fn with_accounts(of_e: &[u8; 11], of_s: &[u8; 11]) -> Draft {
    let mut draft = tidy_example();
    draft.lines[E].put(258, of_e);
    draft.lines[S].put(215, of_s);
    draft.lines[S + 1].put(215, of_s);
    draft
}

fn accounts(list: &mut List) {
    for (account, number) in [
        (b"12345678900", 0),
        (b"1234-5678  ", 0),
        (b"A          ", 0),
        (b"~~~~~~~~~~~", 0),
        (b"1         1", 0),
        (b"0          ", 0),
        (b"00000000000", 0),
        (b"           ", 32),
        (b" 1234567890", 33),
        (b"          1", 33),
    ] {
        let draft = with_accounts(account, account);
        list.add_if(&draft, number == 0, refused_at(number, E, 258));
    }
    // Eleven columns are compared, in capitals; the characters beside the letters are no letters.
    for (of_e, of_s, number) in [
        (b"ab-1       ", b"AB-1       ", 0),
        (b"AB-1       ", b"aB-1       ", 0),
        (b"@          ", b"`          ", 46),
        (b"[          ", b"{          ", 46),
        (ACCOUNT, b"           ", 32),
        (ACCOUNT, b" 2345678900", 33),
        (ACCOUNT, b"1234567890 ", 46),
    ] {
        let draft = with_accounts(of_e, of_s);
        list.add_if(&draft, number == 0, refused_at(number, S, 215));
    }
    for place in 0..11 {
        let mut other = *b"ABCDEFGHIJK";
        other[place] = b'-';
        let draft = with_accounts(b"ABCDEFGHIJK", &other);
        list.add(&draft, refused_at(46, S, 215));
    }
    accounts_of_two(list);
}

/// Each S goes by the E that is open.
fn accounts_of_two(list: &mut List) {
    let employers = [Employer::of(1, &[(1, 1, 1)]), Employer::of(2, &[(2, 2, 2)])];
    let mut draft = tidy(HELD, FILED, &employers);
    draft.lines[4].put(258, b"OTHER      ");
    list.add(&draft, refused(46, 6, 215));
    draft.lines[5].put(215, b"OTHER      ");
    list.add(&draft, Meant::Accepted);
    draft.lines[2].put(215, b"OTHER      ");
    list.add(&draft, refused(46, 3, 215));
}

/// Payroll processors with a licence and without.
fn licences(list: &mut List) {
    for (ein, licence, number) in [
        (b"000000000", b"       ", 0),
        (b"000000000", b"PPA1234", 0),
        (b"000000000", b" PA1234", 33),
        (b"000000001", b"       ", 32),
        (b"100000000", b"       ", 32),
        (b"012345677", b"       ", 32),
        (b"012345677", b"PPA1234", 0),
        (b"012345677", b"P      ", 0),
        (b"012345677", b"      1", 33),
        (b"690000000", b"PPA1234", 0),
    ] {
        let mut draft = tidy_example();
        draft.lines[E].put(209, ein);
        draft.lines[E].put(218, licence);
        list.add_if(&draft, number == 0, refused_at(number, E, 218));
    }
}

/// Each column of the code one off, in each record that has it.
fn entity_codes(list: &mut List) {
    for (place, first) in [(A, 15), (E, 167), (S, 143), (T, 9), (F, 22)] {
        for column in 0..4 {
            for step in [-1, 1] {
                let mut code = *b"WHAM";
                code[column] = code[column].wrapping_add_signed(step);
                list.put_refused(place, first, &code, (34, first));
            }
        }
        for code in [b"wham", b"Wham", b"wHaM"] {
            list.put(place, first, code, Meant::Accepted);
        }
        for code in [b"PFML", b"    ", b"WHA ", b"WHAm", b"WHA\x2D"] {
            let passes = code == b"WHAm";
            let meant = if passes {
                Meant::Accepted
            } else {
                refused_at(34, place, first)
            };
            list.put(place, first, code, meant);
        }
    }
}

/// 23 is Maine; all other numbers of two digits are none.
fn state_codes(list: &mut List) {
    for (place, first) in [(E, 171), (S, 44)] {
        for code in 0..100 {
            let text = format!("{code:02}");
            let meant = match code {
                23 => Meant::Accepted,
                _ => refused_at(35, place, first),
            };
            list.put(place, first, text.as_bytes(), meant);
        }
        for (text, column) in [
            (b"2A", first + 1),
            (b"ME", first),
            (b" 3", first),
            (b"3 ", first + 1),
        ] {
            list.put_refused(place, first, text, (30, column));
        }
    }
}

/// Every character in 190, with S records after it and with none.
fn flags(list: &mut List) {
    for mark in 0x20..=0x7E {
        let mut with_s = tidy_example();
        with_s.lines[E].put(190, &[mark]);
        let mut without = tidy(HELD, FILED, &[Employer::without_t(1)]);
        without.lines[E].put(190, &[mark]);
        let (with_s_gets, without_gets) = match mark {
            b'0' => (refused_at(16, S, 1), Meant::Accepted),
            b'1' => (Meant::Accepted, refused(17, 3, 1)),
            _ => (refused_at(47, E, 190), refused_at(47, E, 190)),
        };
        list.add(&with_s, with_s_gets);
        list.add(&without, without_gets);
    }
}

/// Around 9 in front; neither 666 nor what the IRS issues, nor 2020's three numbers, matter.
fn identity_numbers(list: &mut List) {
    for id in [
        "000000000",
        "000000001",
        "099999999",
        "666000001",
        "666999999",
        "899999999",
        "111111111",
        "333333333",
        "123456789",
        "000001234",
        "800900000",
        "090000000",
    ] {
        list.put(S, 2, id.as_bytes(), Meant::Accepted);
    }
    for id in [
        "900000000",
        "900000001",
        "900700001",
        "912501234",
        "999999999",
        "990000000",
    ] {
        list.put_refused(S, 2, id.as_bytes(), (52, 2));
    }
    list.put_refused(S, 2, b"9A0000000", (30, 3));
    list.put_refused(S, 2, b"90000000 ", (30, 10));
    list.put_refused(S, 2, b"xxxxx1234", (30, 2));
    // The same number as often as one likes, under one E and under two.
    for ids in [[5, 5, 5], [0, 0, 0], [5, 0, 5], [666_666_666, 5, 5]] {
        let people = ids.map(|id| (id, 1, 2));
        let employers = [Employer::of(1, &people), Employer::of(2, &people)];
        list.add(&tidy(HELD, FILED, &employers), Meant::Accepted);
    }
}

/// Any nine digits are a FEIN, as often as one likes.
fn feins(list: &mut List) {
    for fein in [
        "000000000",
        "000000001",
        "690000000",
        "699999999",
        "999999999",
        "069000000",
    ] {
        list.put(A, 6, fein.as_bytes(), Meant::Accepted);
        list.put(E, 6, fein.as_bytes(), Meant::Accepted);
        let mut draft = tidy_example();
        put(&mut draft.lines[E].text, 209, fein.as_bytes());
        put(&mut draft.lines[E].text, 218, b"PPA1234");
        list.add(&draft, Meant::Accepted);
    }
    for feins in [[1, 1, 1], [0, 0, 5], [5, 0, 5], [690_000_000; 3]] {
        let employers = feins.map(Employer::without_t);
        list.add(&tidy(HELD, FILED, &employers), Meant::Accepted);
        let employers = feins.map(|fein| Employer::of(fein, &[(1, 2, 3)]));
        list.add(&tidy(HELD, FILED, &employers), Meant::Accepted);
    }
}
