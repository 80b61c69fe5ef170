//! Which refusal comes first: two edits broken in one field, in neighbouring fields, or in a line
//! and its fields. All are typed by hand from the paper.

use super::{refused, List, Q1, Q3};
use crate::draft::*;

/// What is written into a record, from which columns on; and the number and column then told.
type Row = (&'static [(usize, &'static [u8])], u8, u64);

pub fn add(list: &mut List) {
    list.name("order in a");
    add_rows(list, 0, &IN_A);
    list.name("order in e");
    add_rows(list, 1, &IN_E);
    flags_in_order(list);
    list.name("order in s");
    add_rows(list, 2, &IN_S);
    list.name("order in t");
    add_rows(list, 4, &IN_T);
    list.name("order in f");
    add_rows(list, 5, &IN_F);
    list.name("order in a line");
    lines_before_fields(list);
    place_before_fields(list);
}

/// The example file, whose lines are A, E, S, S, T and F, with one line broken.
fn add_rows(list: &mut List, place: usize, rows: &[Row]) {
    for (parts, number, column) in rows {
        let mut draft = example(Q1, Q1);
        for (first, text) in *parts {
            draft.lines[place].put(*first, text);
        }
        list.add(&draft, refused(*number, place as u64 + 1, *column));
    }
}

const IN_A: [Row; 18] = [
    (&[(2, b"2A24")], 30, 3),
    (&[(2, b"2024"), (6, b"690000000")], 38, 2),
    (&[(2, b"2027"), (6, b"69000000A")], 39, 2),
    (&[(2, b"2024"), (19, b"99")], 38, 2),
    (&[(6, b"69A000000")], 30, 8),
    (&[(6, b"690000000"), (15, b"WHAM")], 44, 6),
    (&[(15, b"WHAM"), (19, b"1A")], 34, 15),
    (&[(19, b"1A"), (21, b"1")], 40, 19),
    (&[(19, b"06"), (21, b"1")], 31, 21),
    (&[(19, b"09"), (21, b"1")], 41, 19),
    (&[(21, b"  1"), (24, b" ")], 31, 23),
    (&[(24, b" "), (139, b"XX")], 33, 24),
    (&[(139, b"XX"), (154, b"XXXXX"), (159, b"XXXXX")], 35, 139),
    (&[(141, b"1"), (154, b"XXXXX")], 31, 141),
    (&[(154, b"XXXXX"), (159, b"XXXXX")], 36, 154),
    (&[(159, b"XXXXX"), (164, b" ")], 37, 159),
    (&[(194, b" "), (204, b" 1"), (208, b"1")], 30, 194),
    (&[(204, b" 1"), (208, b"1")], 33, 204),
];

const IN_E: [Row; 25] = [
    (&[(2, b"2A24")], 30, 3),
    (&[(2, b"2024"), (6, b"690000000")], 38, 2),
    (&[(2, b"2025"), (6, b"690000000")], 42, 2),
    (&[(6, b"69000000A")], 30, 14),
    (&[(6, b"690000000"), (15, b"1")], 44, 6),
    (&[(139, b"XX"), (149, b"XXXXX"), (154, b"XXXXX")], 35, 139),
    (&[(149, b"XXXXX"), (154, b"XXXXX")], 37, 149),
    (&[(154, b"XXXXX"), (167, b"WHAM")], 36, 154),
    (&[(167, b"WHAM"), (173, b"1")], 34, 167),
    (&[(173, b"1"), (187, b"2")], 30, 174),
    (&[(187, b"2"), (188, b"0A")], 47, 187),
    (&[(188, b"0A"), (190, b"2")], 40, 188),
    (&[(188, b"06"), (190, b"2")], 43, 188),
    // Another period than A's is told before the flag that is tested in period 09.
    (&[(188, b"09"), (191, b"2")], 43, 188),
    (&[(190, b"2"), (201, b" ")], 47, 190),
    (&[(201, b" "), (261, b" ")], 33, 201),
    (&[(261, b" "), (282, b"2")], 30, 261),
    (&[(282, b"2"), (283, b"ABCDEFGH")], 47, 282),
    (&[(282, b"0"), (283, b"0000000A")], 30, 290),
    (&[(282, b"0"), (283, b"13992024")], 50, 283),
    (&[(282, b"1"), (283, b"        ")], 30, 283),
    (&[(282, b"1"), (283, b"00000000")], 51, 283),
    (&[(282, b"1"), (283, b"0331202A")], 30, 290),
    (&[(282, b"1"), (283, b"02302025")], 48, 283),
    (&[(282, b"1"), (283, b"04012026")], 49, 283),
];

const IN_S: [Row; 16] = [
    (&[(2, b"9A0000000")], 30, 3),
    (&[(2, b"66600000 ")], 30, 10),
    (&[(2, b"666000001"), (11, b"1")], 52, 2),
    (&[(11, b" NNE2")], 33, 11),
    (&[(11, b"A1B2")], 54, 12),
    (&[(11, b"A1"), (31, b" ")], 54, 12),
    (&[(31, b"A1"), (43, b"1")], 54, 32),
    (&[(43, b"1"), (46, b"99")], 31, 43),
    (&[(46, b"0A"), (48, b"2A24")], 40, 46),
    (&[(46, b"06"), (48, b"2024")], 43, 46),
    (&[(48, b"2024"), (52, b"1")], 38, 48),
    (&[(48, b"2O26"), (64, b"A")], 30, 49),
    (&[(64, b"-"), (143, b"WHAM")], 30, 64),
    (&[(143, b"WHAM"), (147, b"690000000")], 34, 143),
    (&[(147, b"69000000A")], 30, 155),
    (&[(147, b"690000000"), (156, b"1")], 46, 147),
];

const IN_T: [Row; 7] = [
    (&[(2, b"000000A"), (9, b"WHAM")], 30, 8),
    (&[(2, b"0000003"), (9, b"WHAM")], 55, 2),
    (&[(9, b"WHAM"), (13, b"000000000")], 34, 9),
    (&[(13, b"000000000"), (22, b"1")], 46, 13),
    (&[(22, b"1"), (27, b"00000000000000")], 31, 22),
    (&[(27, b"0000000000000A")], 30, 40),
    (&[(27, b"00000000000000"), (41, b"1")], 57, 27),
];

const IN_F: [Row; 7] = [
    (&[(2, b"000000000A"), (12, b"A")], 30, 11),
    (&[(2, b"0000000003"), (12, b"A")], 58, 2),
    (&[(12, b"0000000002"), (22, b"WHAM")], 59, 12),
    (&[(22, b"WHAM"), (26, b"1")], 34, 22),
    (&[(26, b"1"), (41, b"000000000000000")], 31, 26),
    (&[(41, b"00000000000000A")], 30, 55),
    (&[(41, b"000000000000000"), (56, b"1")], 60, 41),
];

/// Both flags of a third quarter.
fn flags_in_order(list: &mut List) {
    for (marks, column) in [(b"22", 190), (b"12", 191)] {
        let mut draft = example(Q3, Q3);
        draft.lines[1].put(190, marks);
        list.add(&draft, refused(47, 2, column));
    }
}

/// A broken line with a bad character, a bad letter, out of place and with broken fields.
fn lines_before_fields(list: &mut List) {
    let mut draft = example(Q1, Q1);
    draft.lines.remove(0);
    draft.lines[0].put(6, b"69");
    list.add(&draft, refused(10, 1, 1));
    draft.lines[0].put(1, b"X");
    list.add(&draft, refused(4, 1, 1));
    draft.lines[0].put(290, b"\x80");
    list.add(&draft, refused(3, 1, 290));
    draft.lines[0].put(2, b"\0");
    list.add(&draft, refused(3, 1, 2));
    draft.lines.truncate(1);
    draft.lines[0].end.clear();
    list.add(&draft, refused(2, 1, 291));
    draft.lines[0].text.pop();
    list.add(&draft, refused(1, 1, 290));
    draft.header[5] = b'4';
    list.add(&draft, refused(70, 0, 0));
}

/// A second A, E, T or F, or an S, where it may not stand, with every other column blank.
fn place_before_fields(list: &mut List) {
    for (place, letter, number) in [
        (1, b"A", 11),
        (1, b"S", 12),
        (1, b"T", 13),
        (1, b"F", 14),
        (2, b"E", 15),
        (2, b"F", 17),
        (5, b"S", 12),
        (5, b"T", 18),
        (6, b"A", 11),
        (6, b"F", 19),
        (6, b"E", 20),
        (6, b"S", 20),
        (6, b"T", 20),
    ] {
        let mut draft = example(Q1, Q1);
        let mut line = vec![b' '; 290];
        put(&mut line, 1, letter);
        draft.insert(place, line);
        list.add(&draft, refused(number, place as u64 + 1, 1));
    }
}
