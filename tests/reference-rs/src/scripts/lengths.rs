//! Tables of all lengths: none, one, as many as the state uses, one short of that, one more; lists
//! of more than 65,536 entries; and other lengths from call to call.

use super::calls::line_then_end;
use super::moments::{after_t, base, content, e_open, in_each_phase, HELD};
use super::records::{line_for, record, short_line};
use super::{Scene, Script};
use crate::draft::{put_number, record_e, record_f, AUGUSTA};
use crate::meaning::Room;
use crate::program::MANY_EMPLOYERS;
use crate::rng::Rng;
use crate::walk::{unfit, Standing};

pub fn add(scenes: &mut Vec<Scene>) {
    each_phase(scenes);
    full_tables(scenes);
    whole_files(scenes);
    beyond_each_phase(scenes);
    scenes.push(Box::new(|_, script| employers_beyond(script)));
    for _ in 0..20 {
        scenes.push(Box::new(other_lengths));
    }
}

fn room(ids: usize, employers: usize) -> Room {
    Room { ids, employers }
}

/// The state uses two ids and two entries, in the phases that have any.
fn each_phase(scenes: &mut Vec<Scene>) {
    let lengths = [0, 1, 2, 3];
    for moment in in_each_phase() {
        // No more is lent than there is.
        let mut rooms = vec![room(40, 12), room(99, 99)];
        for ids in lengths {
            rooms.extend(lengths.map(|employers| room(ids, employers)));
        }
        for lent in rooms {
            let moment = moment.clone();
            scenes.push(Box::new(move |rng, script| {
                script.lent = lent;
                line_then_end(rng, script, &moment);
            }));
        }
    }
}

/// An S that takes the last room and one that finds none, and so with an E; a number or FEIN of the
/// table is told before, and zero takes no room.
fn full_tables(scenes: &mut Vec<Scene>) {
    for ids in 0..=4 {
        for id in [0, 5, 333_333_333, 444_444_444] {
            scenes.push(Box::new(move |rng, script| {
                let moment = e_open();
                script.lent = room(ids, 2);
                script.set(&moment);
                let mut line = record(rng, b'S', &moment.state, &moment.tables);
                put_number(&mut line, 2, 10, id);
                script.line(&[&line[..], b"\n"].concat());
            }));
        }
    }
    for employers in 1..=4 {
        for fein in [5, 0, 77, 12_345_678] {
            scenes.push(Box::new(move |_, script| {
                let moment = after_t();
                script.lent = room(0, employers);
                script.set(&moment);
                let line = record_e(moment.state.quarter_of_a, fein, false, &AUGUSTA);
                script.line(&[&line[..], b"\r"].concat());
            }));
        }
    }
}

/// A whole file that needs two ids and two entries.
fn whole_files(scenes: &mut Vec<Scene>) {
    for ids in 0..=3 {
        for employers in 0..=3 {
            scenes.push(Box::new(move |rng, script| {
                script.lent = room(ids, employers);
                script.set_tables(&content());
                script.whole(HELD, &base().file());
                script.end();
                script.line(short_line(rng));
            }));
        }
    }
}

/// 65,535 employers, one more and two more.
fn beyond_each_phase(scenes: &mut Vec<Scene>) {
    for moment in in_each_phase() {
        let moment = moment.clone();
        scenes.push(Box::new(move |rng, script| {
            script.set(&moment);
            for more in 0..3 {
                let mut state = moment.state;
                state.employers = MANY_EMPLOYERS + more;
                script.beyond(more, &line_for(rng, &state, &moment.tables));
            }
            script.beyond(rng.below(10), short_line(rng));
        }));
    }
}

/// Each record that may come after so many employers; 7 is the FEIN of every entry.
fn employers_beyond(script: &mut Script) {
    let moment = after_t();
    let state = &moment.state;
    script.set(&moment);
    for more in 0..3 {
        for fein in [8, 7, 690_000_000] {
            let line = record_e(state.quarter_of_a, fein, true, &AUGUSTA);
            script.beyond(more, &[&line[..], b"\r\n"].concat());
        }
        let employers = MANY_EMPLOYERS + more;
        for told in [employers, 65_535, 65_537] {
            let line = record_f(state.s, told, state.cents);
            script.beyond(more, &[&line[..], b"\n"].concat());
        }
    }
}

/// The calls of one walk, each lent tables of another length. Where they are too short for the state
/// the walk stands still, and goes on when they are long enough.
fn other_lengths(rng: &mut Rng, script: &mut Script) {
    let draft = base();
    let mut lines = draft.lines.iter();
    script.lent = room(rng.index(41), rng.index(13));
    script.open(HELD);
    for _ in 0..16 {
        script.lent = room(rng.pick(&[1, 2, 3, 40]), rng.pick(&[0, 1, 2, 2, 3, 12]));
        let state = script.state();
        if matches!(state.standing, Standing::Refused(_)) {
            break;
        }
        if unfit(&state, script.lent.ids, script.lent.employers) {
            script.line(short_line(rng));
            script.end();
            continue;
        }
        match lines.next() {
            Some(line) => script.line(&[&line.text[..], &line.end[..]].concat()),
            None => script.end(),
        }
    }
    script.end();
}
