//! Formats: openings with numbers that name none, under quarters that may be held and that may not;
//! and states whose format is none, wherever the walk stands.

use super::calls::{again, line_then_end, record_for};
use super::moments::{content, in_each_phase, refused, Moment, HELD, LENT};
use super::records::short_line;
use super::{Scene, Script};
use crate::calendar::Quarter;
use crate::command::{Lent, NUMBERS};
use crate::format::Format;
use crate::layout::LENGTH;
use crate::meaning::Room;
use crate::program::KEPT;
use crate::rng::Rng;
use crate::words::FORMAT;
use crate::write::Written;

/// Numbers that name no format; of some the low half would name one.
pub const NO_FORMATS: [u64; 9] = [3, 9, 255, 256, 257, 65_536, 1 << 32, 1 << 63, u64::MAX];

const BAD: Quarter = Quarter::new(2026, 5);

pub fn add(scenes: &mut Vec<Scene>) {
    for number in NO_FORMATS {
        for held in [HELD, Quarter::new(9999, 12), BAD, Quarter::new(2024, 12)] {
            scenes.push(Box::new(move |rng, script| {
                refused_opening(rng, script, number, held);
            }));
        }
    }
    for words in [0, 1, 17, 18, 26, 27, 28, 30] {
        scenes.push(Box::new(move |_, script| lent_short(script, words)));
    }
    for moment in in_each_phase() {
        scenes.push(Box::new(move |rng, script| {
            every_number(rng, script, &moment);
        }));
    }
    for number in NUMBERS {
        scenes.push(Box::new(move |rng, script| {
            every_number(rng, script, &refused(number));
        }));
    }
}

/// Mostly PFML.
pub fn some_format(rng: &mut Rng) -> u64 {
    match rng.one_in(15) {
        true => rng.pick(&NO_FORMATS),
        false => Format::Pfml.word(),
    }
}

/// 70 before 73; each touches nothing, however often. Then an opening that is fine.
fn refused_opening(rng: &mut Rng, script: &mut Script, number: u64, held: Quarter) {
    let none = Room {
        ids: 0,
        employers: 0,
    };
    script.lent = rng.pick(&[LENT, KEPT, none]);
    script.set_tables(&content());
    script.open_as(number, held);
    again(rng, script);
    script.frames(rng.pick(&[0, 2]), rng.pick(&[16, 17, 35]));
    script.write(rng.pick(&Written::BOTH), rng.pick(&[289, LENGTH]));
    script.whole_as(number, held, short_line(rng));
    script.end();
    script.open(HELD);
    script.end();
}

/// 72 before both.
fn lent_short(script: &mut Script, words: usize) {
    script.lend(Lent { words, answer: 4 });
    script.set_tables(&content());
    for held in [HELD, BAD] {
        script.open_as(9, held);
        script.whole_as(u64::MAX, held, b"");
    }
    script.lend(Lent::ENOUGH);
}

/// A walk of no format: 72 unless an opening refused it.
fn every_number(rng: &mut Rng, script: &mut Script, moment: &Moment) {
    script.lent = LENT;
    for number in NO_FORMATS {
        script.set(moment);
        script.word(FORMAT, number);
        script.write(record_for(rng, moment.state.standing), LENGTH);
        script.frames(LENT.employers, 129);
        script.end();
        script.line(short_line(rng));
    }
    let mut unknown = moment.clone();
    unknown.state.format = Format::Unknown;
    line_then_end(rng, script, &unknown);
    script.beyond(0, short_line(rng));
}
