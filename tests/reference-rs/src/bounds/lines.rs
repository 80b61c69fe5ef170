//! Line lengths, line ends and characters.

use super::{refused, List, Q1};
use crate::draft::*;
use crate::gen::Meant;

pub fn add(list: &mut List) {
    list.name("line lengths");
    lengths(list);
    list.name("line ends");
    nothing_but_ends(list);
    two_ends(list);
    list.name("characters");
    characters(list);
    bad_characters_and_lengths(list);
}

fn a() -> Vec<u8> {
    record_a(Q1, 1, &AUGUSTA)
}

/// A file of these parts.
fn add_file(list: &mut List, parts: &[&[u8]], meant: Meant) {
    list.add_input([b"202603\n", &parts.concat()[..]].concat(), meant);
}

/// A record of many lengths, with each end and with none.
fn lengths(list: &mut List) {
    for length in [0, 1, 2, 288, 289, 290, 291, 292, 293, 400, 580, 70_000] {
        let mut line = a();
        line.resize(length, b' ');
        let not_290 = refused(1, 1, (length as u64 + 1).min(291));
        let (with_none, with_end) = match length {
            290 => (refused(2, 1, 291), refused(6, 2, 1)),
            0 => (refused(5, 1, 1), not_290),
            _ => (not_290, not_290),
        };
        add_file(list, &[&line], with_none);
        for end in ENDS {
            add_file(list, &[&line, end], with_end);
        }
    }
}

/// Files that are nothing but ends, or blanks and an end.
fn nothing_but_ends(list: &mut List) {
    for end in ENDS {
        add_file(list, &[end], refused(1, 1, 1));
        add_file(list, &[end, end, end], refused(1, 1, 1));
        add_file(list, &[&[b' '; 290], end], refused(4, 1, 1));
        // Before the first line.
        add_file(list, &[end, &a(), end], refused(1, 1, 1));
    }
}

/// Two ends after A: one end more, or an empty line.
fn two_ends(list: &mut List) {
    for (ends, meant) in [
        (&b"\r\n"[..], refused(6, 2, 1)),
        (b"\n\n", refused(1, 2, 1)),
        (b"\n\r", refused(1, 2, 1)),
        (b"\r\r", refused(1, 2, 1)),
        (b"\r\r\n", refused(1, 2, 1)),
        (b"\n\r\n", refused(1, 2, 1)),
        (b"\r\n\n", refused(1, 2, 1)),
        (b"\r\n\r", refused(1, 2, 1)),
        (b"\n\x1A", refused(1, 2, 2)),
        (b"\n ", refused(1, 2, 2)),
        (b"\n\0\0\0", refused(1, 2, 4)),
        (b"\x0B", refused(1, 1, 291)),
        (b"\x0C\n", refused(1, 1, 291)),
        (b"\x85", refused(1, 1, 291)),
        (b"\0\n", refused(1, 1, 291)),
    ] {
        add_file(list, &[&a(), ends], meant);
    }
}

/// Bytes on both sides of hex 20 and 7E, and others that are no character, in every record.
fn characters(list: &mut List) {
    for place in 0..5 {
        for column in [1, 2, 30, 145, 289, 290] {
            for byte in [0x00, 0x09, 0x0B, 0x1A, 0x1F, 0x7F, 0x80, 0xA0, 0xFF] {
                let mut draft = example(Q1, Q1);
                draft.lines[place].put(column, &[byte]);
                list.add(&draft, refused(3, place as u64 + 1, column as u64));
            }
        }
        for byte in [0x20, 0x7E] {
            let mut draft = example(Q1, Q1);
            draft.lines[place].put(1, &[byte]);
            list.add(&draft, refused(4, place as u64 + 1, 1));
        }
    }
    // In the middle of a text, of A and of E.
    for place in [0, 1] {
        for byte in [0x20, 0x7E] {
            let mut draft = example(Q1, Q1);
            draft.lines[place].put(30, &[byte]);
            list.add(&draft, Meant::Accepted);
        }
    }
}

/// A bad character is told only of a line that has 290 characters and an end.
fn bad_characters_and_lengths(list: &mut List) {
    for column in [1, 2, 145, 289, 290] {
        let mut line = a();
        put(&mut line, column, b"\x7F");
        add_file(list, &[&line], refused(2, 1, 291));
        add_file(list, &[&line, LF], refused(3, 1, column as u64));
        add_file(list, &[&line[..289], LF], refused(1, 1, 290));
        add_file(list, &[&line, b" ", LF], refused(1, 1, 291));
    }
}
