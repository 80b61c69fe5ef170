//! States, provinces, ZIP codes and extensions.

use super::{refused, List, Q1};
use crate::draft::*;
use crate::gen::Meant;
use crate::layout::{PROVINCES, STATES};

pub fn add(list: &mut List) {
    list.name("codes");
    codes(list);
    list.name("zip codes");
    zip_codes(list);
    extensions(list);
    both_wrong(list);
}

/// A zero return with this address in A (place 0) or E (place 1).
fn addressed(place: usize, address: &Address) -> Draft {
    let mut draft = zero_return(Q1, Q1);
    draft.lines[place].put(139, &address.code);
    draft.lines[place].put(154, &address.zip);
    draft.lines[place].put(extension_at(place), &address.extension);
    draft
}

fn extension_at(place: usize) -> usize {
    [159, 149][place]
}

/// Every code of two capitals, in A or in E, and known ones in both; some in small letters.
fn codes(list: &mut List) {
    for first in b'A'..=b'Z' {
        for second in b'A'..=b'Z' {
            let code = [first, second];
            let in_province = PROVINCES.contains(&&code);
            let known = in_province || STATES.contains(&&code);
            let address = if in_province { OTTAWA } else { AUGUSTA };
            let one = usize::from((first + second) % 2);
            for place in if known { 0..=1 } else { one..=one } {
                let mut draft = addressed(place, &Address { code, ..address });
                if first % 3 == 0 {
                    draft.lines[place].text.make_ascii_lowercase();
                }
                list.add_if(&draft, known, refused(35, place as u64 + 1, 139));
            }
        }
    }
}

/// ZIP codes that are good in a state, good in a province, and good in neither; in all formats.
pub const ZIPS: [&[&[u8; 5]]; 3] = [
    &[b"04332", b"00000", b"99999"],
    &[b"K1A 0", b"k1a 0", b"A9A 9", b"Z0Z 9", b"a0z 0"],
    &[
        b"K1A0 ", b"K1A-0", b"KIA 0", b"K1A O", b" 4332", b"0433 ", b"     ", b"@1A 0", b"K1[ 0",
        b"K:A 0", b"K/A 0", b"`1A 0", b"K1{ 0", b"0433/", b":4332", b"K1A0B", b"K1A  ",
    ],
];

fn zip_codes(list: &mut List) {
    for place in [0, 1] {
        for (good, address) in [(0, AUGUSTA), (1, OTTAWA)] {
            for (kind, zips) in ZIPS.into_iter().enumerate() {
                for zip in zips {
                    let draft = addressed(
                        place,
                        &Address {
                            zip: **zip,
                            ..address
                        },
                    );
                    list.add_if(&draft, kind == good, refused(36, place as u64 + 1, 154));
                }
            }
        }
    }
}

/// The same of extensions.
pub const EXTENSIONS: [&[&[u8; 5]]; 3] = [
    &[b"     ", b"-1061", b"-0000", b"-9999"],
    &[b"B1   ", b"b1   ", b"Z9   ", b"a0   "],
    &[
        b"1061 ", b"'1061", b"-106A", b"B1  1", b"1B   ", b"BB   ", b"- 061", b"-106/", b"-:061",
        b"B    ", b"-    ", b" B1  ", b"@1   ", b"[1   ", b"B/   ", b"B:   ", b"B1 1 ", b"B11  ",
    ],
];

fn extensions(list: &mut List) {
    for place in [0, 1] {
        for (good, address) in [(0, AUGUSTA), (1, OTTAWA)] {
            for (kind, extensions) in EXTENSIONS.into_iter().enumerate() {
                for extension in extensions {
                    let extension = **extension;
                    let draft = addressed(
                        place,
                        &Address {
                            extension,
                            ..address
                        },
                    );
                    let column = extension_at(place) as u64;
                    list.add_if(&draft, kind == good, refused(37, place as u64 + 1, column));
                }
            }
        }
    }
}

/// ZIP code and extension both wrong: which is told goes by first column.
fn both_wrong(list: &mut List) {
    let wrong = Address {
        code: *b"ME",
        zip: *b"     ",
        extension: *b"B1   ",
    };
    list.add(&addressed(0, &wrong), refused(36, 1, 154));
    list.add(&addressed(1, &wrong), refused(37, 2, 149));
    // With a code that is none, neither is looked at.
    for place in [0, 1] {
        let code = *b"XX";
        let meant: Meant = refused(35, place as u64 + 1, 139);
        list.add(&addressed(place, &Address { code, ..wrong }), meant);
    }
}
