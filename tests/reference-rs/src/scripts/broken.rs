//! Lines broken in every way: each break of a valid file, in the state that the lines before it
//! leave; and the calls after the refusal.

use super::moments::{rest_of, walked};
use super::records::short_line;
use super::{Scene, Script};
use crate::breaks::{self, Break};
use crate::draft::{valid, Draft, Size};
use crate::edits::Refusal;
use crate::meaning::Room;
use crate::rng::Rng;
use std::rc::Rc;

/// Room enough for every file made here.
const ROOM: Room = Room {
    ids: 3,
    employers: 2,
};
const SIZE: Size = Size {
    employers: 2,
    employees: 3,
};

pub fn add(scenes: &mut Vec<Scene>) {
    let breaks = Rc::new(breaks::all());
    // Each of them twice, in files of different shapes.
    for which in (0..breaks.len()).chain(0..breaks.len()) {
        let breaks = Rc::clone(&breaks);
        scenes.push(Box::new(move |rng, script| {
            if let Some((draft, refusal)) = broken(rng, &breaks[which]) {
                scene(rng, script, &draft, refusal);
            }
        }));
    }
}

/// A valid file broken so; none if what breaks is the quarter held, which no line has.
pub fn broken(rng: &mut Rng, one: &Break) -> Option<(Draft, Refusal)> {
    loop {
        let mut draft = valid(rng, SIZE);
        match one.apply(rng, &mut draft) {
            Some(refusal) if refusal.number == 70 => return None,
            Some(refusal) => return Some((draft, refusal)),
            None => {}
        }
    }
}

fn scene(rng: &mut Rng, script: &mut Script, draft: &Draft, refusal: Refusal) {
    script.lent = ROOM;
    let before = refusal.line as usize - 1;
    script.set(&walked(draft, before, ROOM));
    let rest = rest_of(draft, before);
    match rest.is_empty() {
        true => script.end(),
        false => script.line(&rest[..rest.len().min(rng.column(292, 300))]),
    }
    script.line(short_line(rng));
    script.end();
}
