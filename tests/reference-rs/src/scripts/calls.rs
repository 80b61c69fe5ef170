//! Calls that many scenes make.

use super::moments::{content, Moment};
use super::records::{line_for, short_line};
use super::Script;
use crate::command::{LONGEST_BUFFER, LONGEST_SLICE};
use crate::edits::Phase;
use crate::layout::LENGTH;
use crate::rng::Rng;
use crate::walk::{unfit, Standing};
use crate::words::COUNT;
use crate::write::Written;

/// A line call and an end call, each in the same walk.
pub fn line_then_end(rng: &mut Rng, script: &mut Script, moment: &Moment) {
    let is_unfit = unfit(&moment.state, script.lent.ids, script.lent.employers);
    let mut moment = moment.clone();
    if is_unfit {
        // That nothing is changed shows only where there is something.
        moment.tables = content();
    }
    script.set(&moment);
    match is_unfit && !rng.one_in(3) {
        true => script.line(short_line(rng)),
        false => script.line(&line_for(rng, &moment.state, &moment.tables)),
    }
    script.set(&moment);
    script.end();
}

/// Line and end calls over and over, with content in the tables before each.
pub fn again(rng: &mut Rng, script: &mut Script) {
    for _ in 0..2 {
        script.set_tables(&content());
        script.line(short_line(rng));
        script.set_tables(&content());
        script.end();
    }
}

/// The record that may be written where a walk stands; either where none may.
pub fn record_for(rng: &mut Rng, standing: Standing) -> Written {
    match standing {
        Standing::Among(Phase::EOpen) => Written::T,
        Standing::Among(Phase::AfterT) => Written::F,
        _ => rng.pick(&Written::BOTH),
    }
}

/// A writing call, mostly of the record that may be written now and into a slice of its length.
pub fn some_writing(rng: &mut Rng, script: &mut Script) {
    let (fitting, any) = (
        record_for(rng, script.state().standing),
        rng.pick(&Written::BOTH),
    );
    let some_length = rng.index(LONGEST_SLICE + 1);
    let other_length = rng.pick(&[LENGTH - 1, LENGTH + 1, some_length]);
    script.write(
        if rng.one_in(6) { any } else { fitting },
        if rng.one_in(6) { other_length } else { LENGTH },
    );
}

/// Frames, mostly into a buffer that is large enough for those of a walk that has ended.
pub fn some_frames(rng: &mut Rng, script: &mut Script) {
    let employers = script.state().employers.min(12) as usize;
    let bound = 47 * employers + 35;
    let some_length = rng.index(LONGEST_BUFFER + 1);
    let length = rng.pick(&[bound, bound, LONGEST_BUFFER, bound - 1, 17, some_length]);
    script.frames(rng.pick(&[0, 2, 3, 3, 12]), length);
}

/// Another number in one word of the state.
pub fn some_word(rng: &mut Rng, script: &mut Script) {
    let at = rng.index(COUNT);
    let own = script.words()[at];
    let any = rng.next() >> rng.below(64);
    let number = rng.pick(&[own ^ 1, own.wrapping_add(1 << 32), any, any, u64::MAX]);
    script.word(at, number);
}
