//! Words that no call leaves: places where no walk stands, numbers that no refusal has, flags of 2,
//! numbers wider than the state's; and state and answer lent short or long.

use super::calls::{line_then_end, record_for};
use super::formats::NO_FORMATS;
use super::moments::{base, content, e_open, in_each_phase, refused, Moment, HELD, LENT};
use super::records::{line_for, short_line};
use super::{Scene, Script};
use crate::calendar::Quarter;
use crate::command::Lent;
use crate::draft::{record_s, record_t};
use crate::layout::LENGTH;
use crate::rng::Rng;
use crate::words::COUNT;
use crate::write::Written;

const STANDING: usize = 0;
const REFUSAL: usize = 1;
const S_FOLLOW: usize = 10;
const OPEN_S: usize = 11;
const OPEN_CENTS: usize = 12;

const MOST: u64 = u64::MAX;
/// A number that is another one where only its low half is read.
const WIDE: u64 = 1 << 32;

pub fn add(scenes: &mut Vec<Scene>) {
    for moment in in_each_phase() {
        scenes.push(Box::new({
            let moment = moment.clone();
            move |rng, script| standing_nowhere(rng, script, &moment)
        }));
        scenes.push(Box::new({
            let moment = moment.clone();
            move |rng, script| wide_numbers(rng, script, &moment)
        }));
        scenes.push(Box::new({
            let moment = moment.clone();
            move |rng, script| refusal_of_others(rng, script, &moment)
        }));
        for words in 0..=Lent::MOST.words {
            let (moment, lent) = (moment.clone(), Lent { words, answer: 4 });
            scenes.push(Box::new(move |rng, script| {
                every_call(rng, script, &moment, lent);
            }));
        }
        for answer in 0..=Lent::MOST.answer {
            let (moment, lent) = (moment.clone(), Lent { words: 28, answer });
            scenes.push(Box::new(move |rng, script| {
                every_call(rng, script, &moment, lent);
            }));
        }
    }
    // 70 and 73 again touch none of them.
    for number in [70, 73] {
        scenes.push(Box::new(move |rng, script| {
            wide_numbers(rng, script, &refused(number));
        }));
    }
    scenes.push(Box::new(numbers_of_refusals));
    scenes.push(Box::new(|_, script| flags(script)));
}

/// Line, end, both records and frames with one word altered, in the same walk.
fn altered(rng: &mut Rng, script: &mut Script, moment: &Moment, at: usize, number: u64) {
    script.lent = LENT;
    script.set(moment);
    script.word(at, number);
    script.write(record_for(rng, moment.state.standing), LENGTH);
    script.frames(LENT.employers, 129);
    match rng.one_in(2) {
        true => script.line(&line_for(rng, &moment.state, &moment.tables)),
        false => script.end(),
    }
}

fn standing_nowhere(rng: &mut Rng, script: &mut Script, moment: &Moment) {
    let moment = Moment {
        tables: content(),
        ..moment.clone()
    };
    for number in [7, 8, 255, 256, WIDE, WIDE + 2, 1 << 63, MOST] {
        altered(rng, script, &moment, STANDING, number);
        script.end();
        script.line(short_line(rng));
    }
}

/// Each word with what has the same low half, and the most.
fn wide_numbers(rng: &mut Rng, script: &mut Script, moment: &Moment) {
    for at in REFUSAL..COUNT {
        script.set_state(moment.state);
        let own = script.words()[at];
        for number in [own + WIDE, own + (1 << 16), MOST, WIDE - 1, 65_535, 65_536] {
            altered(rng, script, moment, at, number);
        }
    }
}

/// A refusal's words in a walk that has none are not read, and are zeros after the next call.
fn refusal_of_others(rng: &mut Rng, script: &mut Script, moment: &Moment) {
    for number in [1, 9, 44, 70, 71, 72, 73, 300] {
        script.lent = LENT;
        script.set(moment);
        for at in 1..4 {
            script.word(at, number);
        }
        script.line(&line_for(rng, &moment.state, &moment.tables));
        script.end();
    }
}

/// Every number of the paper's table, those that it has not, and wider ones.
fn numbers_of_refusals(rng: &mut Rng, script: &mut Script) {
    script.lent = LENT;
    for number in (0..=100).chain([128, 255, 256, 300, 65_580, WIDE + 44, MOST]) {
        let mut moment = refused(44);
        moment.tables = content();
        script.set(&moment);
        script.word(REFUSAL, number);
        script.line(short_line(rng));
        script.end();
        script.frames(0, 17);
    }
}

/// A flag that is not 0 is 1: an S may stand under the E, and a T may not without one.
fn flags(script: &mut Script) {
    for flag in [0, 1, 2, 255, 256, WIDE, 1 << 63, MOST] {
        let (moment, fein) = (e_open(), 77);
        let quarter = moment.state.quarter_of_a;
        script.lent = LENT;
        script.set(&moment);
        script.word(S_FOLLOW, flag);
        script.line(&[&record_s(quarter, fein, 5, 100)[..], b"\n"].concat());
        script.set(&moment);
        for (at, number) in [(S_FOLLOW, flag), (OPEN_S, 0), (OPEN_CENTS, 0)] {
            script.word(at, number);
        }
        script.write(Written::T, LENGTH);
        script.line(&[&record_t(fein, 0, 0)[..], b"\n"].concat());
    }
}

/// Opening, whole file, line, end, both records and frames, lent so much of state and answer.
fn every_call(rng: &mut Rng, script: &mut Script, moment: &Moment, lent: Lent) {
    script.lent = LENT;
    script.lend(lent);
    line_then_end(rng, script, moment);
    script.set(moment);
    script.frames(LENT.employers, 129);
    script.write(record_for(rng, moment.state.standing), LENGTH);
    script.set_tables(&content());
    match rng.below(4) {
        0 => script.open(HELD),
        1 => script.open(Quarter::new(2026, 5)),
        2 => script.open_as(rng.pick(&NO_FORMATS), HELD),
        _ => script.whole(HELD, &base().file()),
    }
    if rng.one_in(6) {
        script.beyond(0, short_line(rng));
    }
    script.lend(Lent::ENOUGH);
}
