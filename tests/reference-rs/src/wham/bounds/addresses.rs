//! States, provinces, ZIP codes and extensions.

use super::{refused_at, List, A, E, FILED, HELD};
use crate::bounds::{EXTENSIONS, ZIPS};
use crate::draft::{Address, OTTAWA};
use crate::layout::{PROVINCES, STATES};
use crate::wham::draft::{tidy, Draft, Employer, AUGUSTA};

pub fn add(list: &mut List) {
    list.name("codes");
    codes(list);
    list.name("zip codes");
    zip_codes(list);
    list.name("extensions");
    extensions(list);
    both_wrong(list);
}

fn extension_at(place: usize) -> usize {
    [159, 149][place]
}

/// A file of one E without T, with this address in A or in E.
fn addressed(place: usize, address: &Address) -> Draft {
    let mut draft = tidy(HELD, FILED, &[Employer::without_t(1)]);
    draft.lines[place].put(139, &address.code);
    draft.lines[place].put(154, &address.zip);
    draft.lines[place].put(extension_at(place), &address.extension);
    draft
}

/// Every code of two capitals, in A or in E, and known ones in both; some in small letters.
fn codes(list: &mut List) {
    for first in b'A'..=b'Z' {
        for second in b'A'..=b'Z' {
            let code = [first, second];
            let in_province = PROVINCES.contains(&&code);
            let known = in_province || STATES.contains(&&code);
            let address = if in_province { OTTAWA } else { AUGUSTA };
            let one = usize::from((first + second) % 2);
            for place in if known { A..=E } else { one..=one } {
                let mut draft = addressed(place, &Address { code, ..address });
                if first % 3 == 0 {
                    draft.lines[place].text.make_ascii_lowercase();
                }
                list.add_if(&draft, known, refused_at(35, place, 139));
            }
        }
    }
}

fn zip_codes(list: &mut List) {
    for (place, (good, address)) in in_both_records() {
        for (kind, zips) in ZIPS.into_iter().enumerate() {
            for zip in zips {
                let zip = **zip;
                let draft = addressed(place, &Address { zip, ..address });
                list.add_if(&draft, kind == good, refused_at(36, place, 154));
            }
        }
    }
}

fn extensions(list: &mut List) {
    for (place, (good, address)) in in_both_records() {
        for (kind, extensions) in EXTENSIONS.into_iter().enumerate() {
            for extension in extensions {
                let extension = **extension;
                let draft = addressed(
                    place,
                    &Address {
                        extension,
                        ..address
                    },
                );
                let told = refused_at(37, place, extension_at(place));
                list.add_if(&draft, kind == good, told);
            }
        }
    }
}

/// A and E, each with an address in a state (kind 0) and in a province (kind 1).
fn in_both_records() -> Vec<(usize, (usize, Address))> {
    let both = |place| [(place, (0, AUGUSTA)), (place, (1, OTTAWA))];
    [both(A), both(E)].into_iter().flatten().collect()
}

/// ZIP code and extension both wrong: which is told goes by first column.
fn both_wrong(list: &mut List) {
    let wrong = Address {
        code: *b"ME",
        zip: *b"     ",
        extension: *b"B1   ",
    };
    list.add(&addressed(A, &wrong), refused_at(36, A, 154));
    list.add(&addressed(E, &wrong), refused_at(37, E, 149));
    for place in [A, E] {
        // With a code that is none, neither is looked at.
        let code = *b"XX";
        list.add(
            &addressed(place, &Address { code, ..wrong }),
            refused_at(35, place, 139),
        );
        // A province needs the extension that a state may leave out.
        let province = Address {
            extension: *b"     ",
            ..OTTAWA
        };
        let told = refused_at(37, place, extension_at(place));
        list.add(&addressed(place, &province), told);
    }
}
