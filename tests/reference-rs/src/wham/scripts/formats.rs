//! This format beside the others: walks of PFML that this format's exports are asked to write in,
//! words of one that are called the other, and numbers that name none.

use super::lines::{fitting, short};
use super::moments::{base, in_each_phase, Moment, HELD, LENT};
use super::{again, write};
use crate::calendar::Quarter;
use crate::rng::Rng;
use crate::scripts::moments as pfml;
use crate::scripts::{Scene, Script};
use crate::wham::write::Given;
use crate::words::FORMAT;
use crate::write::Written;

/// Numbers that name no format; of some the low half would name this one.
const NO_FORMATS: [u64; 6] = [2, 255, 257, (1 << 32) + 1, 1 << 63, u64::MAX];

pub fn add(scenes: &mut Vec<Scene>) {
    for moment in pfml::in_each_phase() {
        scenes.push(Box::new(move |_, script| {
            in_a_walk_of_pfml(script, &moment)
        }));
    }
    for moment in in_each_phase() {
        scenes.push(Box::new(move |rng, script| {
            called_otherwise(rng, script, &moment)
        }));
    }
    for moment in pfml::in_each_phase() {
        scenes.push(Box::new(move |rng, script| {
            script.lent = LENT;
            script.set(&moment);
            script.word(FORMAT, 1);
            every_call(rng, script);
        }));
    }
    for number in NO_FORMATS {
        scenes.push(Box::new(move |rng, script| unknown(rng, script, number)));
    }
    scenes.push(Box::new(files_of_the_other));
}

/// 80 for a walk of another format, after 72 and 83.
fn in_a_walk_of_pfml(script: &mut Script, moment: &Moment) {
    script.set(moment);
    for record in Written::BOTH {
        for length in [274, 275, 290] {
            script.write_wham(record, length, Given::default());
        }
    }
    // More lines than PFML allows, and than this format does.
    for lines in [231_075, 331_075] {
        script.word(4, lines);
        write(script, Written::T, 0);
        write(script, Written::F, 0);
    }
}

/// A walk of this format whose word says PFML, or none.
fn called_otherwise(rng: &mut Rng, script: &mut Script, moment: &Moment) {
    script.lent = LENT;
    for format in [0, rng.pick(&NO_FORMATS)] {
        script.set(moment);
        script.word(FORMAT, format);
        every_call(rng, script);
    }
}

/// Records, frames, a line of this format, and the end.
fn every_call(rng: &mut Rng, script: &mut Script) {
    for record in Written::BOTH {
        write(script, record, 0);
        script.write(record, 290);
    }
    script.frames(LENT.employers, 300);
    let state = script.state();
    script.line(&fitting(rng, &state));
    script.end();
}

/// 73 after 70; each is answered again, and 72 where the word then names this format.
fn unknown(rng: &mut Rng, script: &mut Script, number: u64) {
    script.lent = LENT;
    for held in [HELD, Quarter::new(2026, 5)] {
        script.open_as(number, held);
        again(rng, script);
        write(script, Written::T, 0);
        script.word(FORMAT, 1);
        script.end();
        script.line(short(rng));
        script.frames(0, 17);
        write(script, Written::F, 0);
        script.whole_as(number, held, &base().file());
    }
}

/// A file of each format, opened as the other.
fn files_of_the_other(_: &mut Rng, script: &mut Script) {
    script.lent = LENT;
    for format in [0, 1] {
        for file in [base().file(), pfml::base().file()] {
            script.whole_as(format, HELD, &file);
            script.frames(LENT.employers, 400);
        }
    }
}
