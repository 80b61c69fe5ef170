//! 10 to 20: records out of place.

use super::{meant, List};
use crate::rng::Rng;
use crate::wham::draft::{record_f, record_t, Draft};
use crate::wham::valid::{
    random_fein, random_id, random_record_a, random_record_e, random_record_r, random_record_s,
};

/// What stands before a record that is put in.
#[derive(Clone, Copy, Debug, PartialEq)]
enum Behind {
    Nothing,
    A,
    /// An E saying 1, or an S or R under one.
    OpenSaying1,
    /// An E saying 0, or an R under one.
    OpenSaying0,
    T,
    F,
}

/// Each record behind each other one where it may not stand: the cells of 2.1 that are not ok.
const OUT_OF_PLACE: [(Behind, u8, u8); 25] = [
    (Behind::Nothing, b'E', 10),
    (Behind::Nothing, b'S', 10),
    (Behind::Nothing, b'R', 10),
    (Behind::Nothing, b'T', 10),
    (Behind::Nothing, b'F', 10),
    (Behind::A, b'A', 11),
    (Behind::A, b'S', 12),
    (Behind::A, b'R', 12),
    (Behind::A, b'T', 13),
    (Behind::A, b'F', 14),
    (Behind::OpenSaying1, b'A', 11),
    (Behind::OpenSaying1, b'E', 15),
    (Behind::OpenSaying1, b'F', 17),
    (Behind::OpenSaying0, b'A', 11),
    (Behind::OpenSaying0, b'S', 16),
    (Behind::T, b'A', 11),
    (Behind::T, b'S', 12),
    (Behind::T, b'R', 12),
    (Behind::T, b'T', 18),
    (Behind::F, b'A', 11),
    (Behind::F, b'E', 20),
    (Behind::F, b'S', 20),
    (Behind::F, b'R', 20),
    (Behind::F, b'T', 20),
    (Behind::F, b'F', 19),
];

pub fn add(list: &mut List) {
    for (behind, letter, number) in OUT_OF_PLACE {
        let name = format!("{} behind {:?}", letter as char, behind);
        list.add(number, name, move |rng, draft| {
            let place = place_behind(rng, draft, behind)?;
            let record = record_for(rng, draft, place, letter);
            draft.insert(place, record);
            draft.total();
            Some(meant(number, place, 1))
        });
    }
}

/// The place right after such a record.
fn place_behind(rng: &mut Rng, draft: &Draft, behind: Behind) -> Option<usize> {
    let places = match behind {
        Behind::Nothing => return Some(0),
        Behind::A => draft.places(b'A'),
        Behind::OpenSaying1 => open_places(draft, b"1"),
        Behind::OpenSaying0 => open_places(draft, b"0"),
        Behind::T => draft.places(b'T'),
        Behind::F => draft.places(b'F'),
    };
    match places.is_empty() {
        true => None,
        false => Some(rng.pick(&places) + 1),
    }
}

/// The places of E, S and R records that leave an E open that says so.
fn open_places(draft: &Draft, says: &[u8]) -> Vec<usize> {
    let mut places = [b'E', b'S', b'R']
        .map(|letter| draft.places(letter))
        .concat();
    places.retain(|place| {
        let e = draft.e_above(place + 1);
        e.is_some_and(|e| draft.lines[e].columns(190, 190) == says)
    });
    places
}

/// A record that would be fine elsewhere: its account that of the E above, if it has one.
pub fn record_for(rng: &mut Rng, draft: &Draft, place: usize, letter: u8) -> Vec<u8> {
    let (quarter, account) = (draft.quarter, draft.account_above(place));
    match letter {
        b'A' => random_record_a(rng, quarter.year),
        b'E' => {
            let (fein, says_1) = (random_fein(rng), rng.one_in(2));
            random_record_e(rng, quarter, fein, says_1, &account)
        }
        b'S' => {
            let id = random_id(rng);
            random_record_s(rng, quarter, id, &account)
        }
        b'R' => random_record_r(rng, quarter),
        b'T' => record_t(0, rng.below(1_000), (0, 0)),
        _ => record_f(0, 0, 0),
    }
}
