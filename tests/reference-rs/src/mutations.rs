//! The kinds of cases that are random throughout: odd line ends, and files changed anywhere.

use crate::bounds;
use crate::breaks::{self, bad_byte};
use crate::draft::*;
use crate::gen::{Case, Meant};
use crate::layout::{fields_of, LENGTH};
use crate::rng::Rng;

/// None, two, three; what looks like one.
const ODD_ENDS: [&[u8]; 17] = [
    b"",
    b"\n\n",
    b"\r\r",
    b"\n\r",
    b"\r\r\n",
    b"\r\n\n",
    b"\r\n\r",
    b"\r\n\r\n",
    b"\n\r\n",
    b"\x0B",
    b"\x0C",
    b"\x85",
    b"\x1E",
    b"\0",
    b" \n",
    b"\\n",
    b"\n ",
];

/// Line ends mixed, missing, doubled, or not line ends at all.
pub fn odd_ends(rng: &mut Rng) -> Case {
    let mut draft = valid(rng, SMALL);
    for line in &mut draft.lines {
        line.end = rng.pick(&ENDS).to_vec();
    }
    for _ in 0..rng.between(1, 2) {
        let place = rng.index(draft.lines.len());
        let last = draft.lines.len() - 1;
        let odd = rng.pick(&ODD_ENDS);
        match rng.below(3) {
            0 => draft.lines[place].end = odd.to_vec(),
            1 => draft.lines[last].end = odd.to_vec(),
            _ => draft.lines[last].end.extend_from_slice(odd),
        }
    }
    Case::new("ends", "", draft.input(), Meant::Unsaid)
}

/// One to three changes of a valid file, or of any sequence of records.
pub fn mutated(rng: &mut Rng) -> Case {
    let mut draft = match rng.below(4) {
        0 => random_sequence(rng),
        _ => valid(rng, SMALL),
    };
    for _ in 0..rng.between(1, 3) {
        mutate_lines(rng, &mut draft);
    }
    let mut input = draft.input();
    if rng.one_in(3) {
        mutate_bytes(rng, &mut input);
    }
    Case::new("mutated", "", input, Meant::Unsaid)
}

/// Five to nine records, each most often one that may follow.
fn random_sequence(rng: &mut Rng) -> Draft {
    let mut letters = vec![b'A'];
    for _ in 0..rng.between(4, 8) {
        let may_follow: &[u8] = match letters.last() {
            Some(b'A') => b"E",
            Some(b'E') => b"ST",
            Some(b'S') => b"SST",
            Some(b'T') => b"EF",
            _ => b"AESTF",
        };
        let next = match rng.one_in(12) {
            true => rng.pick(b"AESTF"),
            false => rng.pick(may_follow),
        };
        letters.push(next);
    }
    bounds::sequence(rng, &letters)
}

fn mutate_lines(rng: &mut Rng, draft: &mut Draft) {
    if draft.lines.is_empty() {
        return;
    }
    let place = rng.index(draft.lines.len());
    let other = rng.index(draft.lines.len());
    match rng.below(11) {
        0 => change_byte(rng, &mut draft.lines[place].text),
        1 => draft.lines.swap(place, other),
        2 => drop(draft.lines.remove(place)),
        3 => draft.lines.insert(place, draft.lines[other].clone()),
        4 => copy_field(rng, draft, place, other),
        5 | 6 => refill_field(rng, &mut draft.lines[place]),
        7 => nudge_digit(rng, &mut draft.lines[place].text),
        8 => draft.lines[place].end = rng.pick(&ENDS).to_vec(),
        9 => {
            let letter = rng.pick(b"AESTF");
            let record = breaks::record_for(rng, draft, place, letter);
            draft.insert(place, record);
        }
        _ => {
            refill_field(rng, &mut draft.lines[place]);
            draft.total();
        }
    }
}

fn change_byte(rng: &mut Rng, text: &mut [u8]) {
    if text.is_empty() {
        return;
    }
    let place = rng.index(text.len());
    text[place] = match rng.below(4) {
        0 => bad_byte(rng),
        1 => rng.below(256) as u8,
        _ => printable(rng),
    };
}

/// Copies the same columns from another line.
fn copy_field(rng: &mut Rng, draft: &mut Draft, place: usize, other: usize) {
    let Some((first, last)) = some_field(rng, &draft.lines[place]) else {
        return;
    };
    if draft.lines[other].text.len() == LENGTH {
        let columns = draft.lines[other].text[first - 1..last].to_vec();
        draft.lines[place].put(first, &columns);
    }
}

fn some_field(rng: &mut Rng, line: &Line) -> Option<(usize, usize)> {
    let fields = fields_of(line.letter());
    if fields.is_empty() || line.text.len() != LENGTH {
        return None;
    }
    let field = fields[rng.index(fields.len())];
    Some((field.first, field.last))
}

/// Fills a field with blanks, zeros, nines, digits or other text.
fn refill_field(rng: &mut Rng, line: &mut Line) {
    let Some((first, last)) = some_field(rng, line) else {
        return;
    };
    let width = last + 1 - first;
    let text = match rng.below(6) {
        0 => vec![b' '; width],
        1 => vec![b'0'; width],
        2 => vec![b'9'; width],
        3 | 4 => random_digits(rng, width),
        _ => (0..width).map(|_| printable(rng)).collect(),
    };
    line.put(first, &text);
}

/// One digit of the line up or down by one.
fn nudge_digit(rng: &mut Rng, text: &mut [u8]) {
    let digits: Vec<usize> = (0..text.len())
        .filter(|p| text[*p].is_ascii_digit())
        .collect();
    if digits.is_empty() {
        return;
    }
    let place = rng.pick(&digits);
    let step = if rng.one_in(2) { 1 } else { 9 };
    text[place] = b'0' + (text[place] - b'0' + step) % 10;
}

/// Changes that know nothing of lines.
fn mutate_bytes(rng: &mut Rng, input: &mut Vec<u8>) {
    let place = rng.index(input.len());
    match rng.below(7) {
        0 => drop(input.remove(place)),
        1 => input.insert(place, rng.below(256) as u8),
        2 => input[place] = rng.below(256) as u8,
        3 => input.truncate(place),
        4 => {
            let again = input[place..].to_vec();
            input.extend_from_slice(&again);
        }
        5 => {
            let other = rng.index(input.len());
            input.swap(place, other);
        }
        _ => {
            let length = rng.index(300);
            input.extend((0..length).map(|_| rng.below(256) as u8));
        }
    }
}
