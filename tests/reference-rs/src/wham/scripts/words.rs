//! Words of the state as callers may alter them: each word, in each phase; the numbers of refused
//! walks; and words that this format does not use, through all lines of a file.

use super::lines::{fitting, short};
use super::moments::{base, content, in_each_phase, refused, walked, Moment, HELD, LENT};
use super::{again, open, record_for, some_frames, whole, write};
use crate::calendar::Quarter;
use crate::rng::Rng;
use crate::scripts::{Scene, Script};
use crate::words::COUNT;

/// The words that nothing in this format uses: ids in use, the open E's other records, nearest
/// number and note, and the file's notes.
const NOT_USED: [usize; 5] = [16, 19, 20, 21, 26];

/// The word of the refusal's number.
const REFUSAL: usize = 1;

pub fn add(scenes: &mut Vec<Scene>) {
    for at in 0..COUNT {
        for moment in in_each_phase() {
            scenes.push(Box::new(move |rng, script| {
                each_word(rng, script, at, &moment)
            }));
        }
    }
    for from in (0..=255).step_by(16) {
        scenes.push(Box::new(move |rng, script| {
            refused_numbers(rng, script, from)
        }));
    }
    for lines in 0..17 {
        scenes.push(Box::new(move |rng, script| {
            passing_line(rng, script, lines)
        }));
    }
    for moment in in_each_phase() {
        scenes.push(Box::new(move |rng, script| {
            other_calls(rng, script, &moment)
        }));
    }
    for _ in 0..4 {
        scenes.push(Box::new(whole_walk));
    }
    scenes.push(Box::new(openings));
}

/// Some numbers in one word, each with a line, an end, a record and frames.
fn each_word(rng: &mut Rng, script: &mut Script, at: usize, moment: &Moment) {
    script.lent = LENT;
    script.set(moment);
    let own = script.words()[at];
    let any = rng.next() >> rng.below(64);
    for number in [own.wrapping_add(1), own.wrapping_sub(1), any] {
        script.set(moment);
        script.word(at, number);
        let state = script.state();
        write(script, record_for(rng, &state), 3);
        if rng.one_in(3) {
            some_frames(rng, script);
        }
        script.line(&fitting(rng, &moment.state));
        if rng.one_in(2) {
            script.set(moment);
            script.word(at, number);
            script.end();
        }
    }
}

/// Point 7 of 72: every number of eight bits, and some that are longer.
fn refused_numbers(rng: &mut Rng, script: &mut Script, from: u64) {
    script.lent = LENT;
    script.set(&refused(52));
    for number in (from..from + 16).chain([from + 256, from + (1 << 32)]) {
        script.set_tables(&content());
        script.word(REFUSAL, number);
        match rng.below(3) {
            0 => script.end(),
            1 => script.line(short(rng)),
            _ => script.frames(0, 17),
        }
    }
}

/// Something in each of the words that are not used, or in some.
fn fill(rng: &mut Rng, script: &mut Script) {
    let all = rng.one_in(2);
    for at in NOT_USED {
        if all || rng.one_in(3) {
            let any = rng.next() >> rng.below(64);
            script.word(at, rng.pick(&[any, 1, 2, 1 << 32, u64::MAX]));
        }
    }
}

/// Each line of `base` in turn, after the words were filled.
fn passing_line(rng: &mut Rng, script: &mut Script, lines: usize) {
    let draft = base();
    let line = &draft.lines[lines];
    script.lent = LENT;
    script.set(&walked(&draft, lines, LENT));
    fill(rng, script);
    script.line(&[&line.text[..], &line.end[..]].concat());
    assert_eq!(script.answered, 0, "the line passes");
}

/// Records and frames, which change nothing; the end; a line that is refused, and again.
fn other_calls(rng: &mut Rng, script: &mut Script, moment: &Moment) {
    script.lent = LENT;
    script.set(moment);
    fill(rng, script);
    write(script, record_for(rng, &moment.state), 1);
    script.frames(LENT.employers, 175);
    script.end();
    script.end();
    script.set(moment);
    fill(rng, script);
    script.line(short(rng));
    fill(rng, script);
    again(rng, script);
}

/// A walk to its acceptance, with something in the words, and in the id table, before each line.
fn whole_walk(rng: &mut Rng, script: &mut Script) {
    script.lent = LENT;
    open(script, HELD);
    let mut tables = script.tables().clone();
    tables.ids = content().ids;
    script.set_tables(&tables);
    for line in &base().lines {
        fill(rng, script);
        script.line(&[&line.text[..], &line.end[..]].concat());
        assert_eq!(script.answered, 0, "the line passes");
    }
    script.end();
    assert_eq!(script.answered, 0, "the file is accepted");
    script.end();
    some_frames(rng, script);
}

/// Every opening writes all of the words.
fn openings(rng: &mut Rng, script: &mut Script) {
    script.lent = LENT;
    for held in [HELD, Quarter::new(2026, 5), Quarter::new(2024, 12)] {
        fill(rng, script);
        open(script, held);
        fill(rng, script);
        whole(script, held, &base().file());
    }
}
