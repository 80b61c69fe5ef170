//! The words that PFML does not use, with something in them: what each record that passes leaves of
//! them, a refusal, the end and an opening.

use super::calls::record_for;
use super::formats::NO_FORMATS;
use super::moments::{base, in_each_phase, refused, walked, Moment, HELD, LENT};
use super::records::short_line;
use super::{Scene, Script};
use crate::calendar::Quarter;
use crate::layout::LENGTH;
use crate::rng::Rng;
use crate::words::{COUNT, FORMAT};

pub fn add(scenes: &mut Vec<Scene>) {
    // Twice each, since the numbers are by chance.
    for lines in (0..base().lines.len()).chain(0..base().lines.len()) {
        scenes.push(Box::new(move |rng, script| {
            passing_line(rng, script, lines)
        }));
    }
    let others = [refused(70), refused(73)];
    for moment in in_each_phase().into_iter().chain(others) {
        scenes.push(Box::new(move |rng, script| {
            other_calls(rng, script, &moment);
        }));
    }
    scenes.push(Box::new(openings));
    scenes.push(Box::new(whole_walk));
}

/// Something in each of them, or in some.
fn fill(rng: &mut Rng, script: &mut Script) {
    let all = rng.one_in(2);
    for at in FORMAT + 1..COUNT {
        if all || rng.one_in(3) {
            let any = rng.next() >> rng.below(64);
            script.word(at, rng.pick(&[any, 1, 2, 1 << 32, u64::MAX]));
        }
    }
}

/// Each line of `base` in turn: A, E, S, T and F.
fn passing_line(rng: &mut Rng, script: &mut Script, lines: usize) {
    let draft = base();
    let line = &draft.lines[lines];
    script.lent = LENT;
    script.set(&walked(&draft, lines, LENT));
    fill(rng, script);
    script.line(&[&line.text[..], &line.end[..]].concat());
    assert_eq!(script.answered, 0, "the line passes");
}

/// Records and frames, which change nothing; the end; a line that is refused, and again.
fn other_calls(rng: &mut Rng, script: &mut Script, moment: &Moment) {
    script.lent = LENT;
    script.set(moment);
    fill(rng, script);
    script.write(record_for(rng, moment.state.standing), LENGTH);
    script.frames(LENT.employers, 129);
    script.end();
    script.end();
    script.set(moment);
    fill(rng, script);
    script.line(short_line(rng));
    fill(rng, script);
    script.line(short_line(rng));
    script.end();
}

/// Every opening writes all of the words.
fn openings(rng: &mut Rng, script: &mut Script) {
    script.lent = LENT;
    for held in [HELD, Quarter::new(2026, 5)] {
        for format in [0, rng.pick(&NO_FORMATS)] {
            fill(rng, script);
            script.open_as(format, held);
            fill(rng, script);
            script.whole_as(format, held, &base().file());
        }
    }
}

/// A walk to its acceptance, with something in the words before each line.
fn whole_walk(rng: &mut Rng, script: &mut Script) {
    script.lent = LENT;
    script.open(HELD);
    for line in &base().lines {
        fill(rng, script);
        script.line(&[&line.text[..], &line.end[..]].concat());
        assert_eq!(script.answered, 0, "the line passes");
    }
    script.end();
    assert_eq!(script.answered, 0, "the file is accepted");
    script.end();
}
