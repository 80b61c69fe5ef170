//! Written records that are lent to the next line call: each is accepted, in capitals and in small
//! letters and with each of the three ends; with one byte changed it is refused.

use super::moments::{after_t, e_open, e_open_saying_0, HELD, LENT, QUARTER};
use super::{Scene, Script};
use crate::draft::{tidy, valid, Draft, Employer, Size, ENDS};
use crate::layout::{fields_of, LENGTH};
use crate::program::{KEPT, MANY_EMPLOYERS};
use crate::rng::Rng;
use crate::walk::{Standing, State};
use crate::write::{Written, TOO_MUCH_FOR_F, TOO_MUCH_FOR_T};

/// No more than is lent.
const SIZE: Size = Size {
    employers: 3,
    employees: 3,
};

/// How a written record is lent.
#[derive(Clone, Copy)]
struct Way {
    end: &'static [u8],
    small: bool,
}

pub fn add(scenes: &mut Vec<Scene>) {
    for end in ENDS {
        for small in [false, true] {
            let way = Way { end, small };
            scenes.push(Box::new(move |_, script| walk(script, &two_returns(), way)));
            scenes.push(Box::new(move |rng, script| {
                walk(script, &valid(rng, SIZE), way);
            }));
        }
    }
    for (record, state) in at_bounds() {
        scenes.push(Box::new(move |rng, script| {
            script.lent = KEPT;
            script.set_state(state);
            hand_on(script, record, Way::any(rng));
        }));
    }
    scenes.push(Box::new(many_employers));
    for record in Written::BOTH {
        for field in fields_of(record.letter()) {
            for column in [field.first, field.last] {
                scenes.push(Box::new(move |rng, script| {
                    one_byte_changed(rng, script, record, column);
                }));
            }
        }
    }
}

impl Way {
    fn any(rng: &mut Rng) -> Way {
        Way {
            end: rng.pick(&ENDS),
            small: rng.one_in(2),
        }
    }

    /// The record that is written in this state, as a line.
    fn line(self, state: &State, record: Written) -> Vec<u8> {
        let mut slice = vec![b'.'; LENGTH];
        assert_eq!(record.write(state, &mut slice), None);
        if self.small {
            slice.make_ascii_lowercase();
        }
        [&slice, self.end].concat()
    }
}

/// Two employers, one of them with a zero return.
fn two_returns() -> Draft {
    let employer = |fein, employees| Employer { fein, employees };
    let employees = vec![(111_111_111, 123_456), (0, 44)];
    let employers = [employer(12_345_678, employees), employer(77, vec![])];
    tidy(HELD, QUARTER, &employers)
}

/// A walk to its acceptance, in which each T and F is written before it is read.
fn walk(script: &mut Script, draft: &Draft, way: Way) {
    script.lent = LENT;
    script.open(draft.held);
    for line in &draft.lines {
        match line.letter() {
            b'T' => hand_on(script, Written::T, way),
            b'F' => hand_on(script, Written::F, way),
            _ => script.line(&[&line.text[..], &line.end[..]].concat()),
        }
    }
    script.end();
    assert_eq!(script.state().standing, Standing::Accepted);
}

fn hand_on(script: &mut Script, record: Written, way: Way) {
    let line = way.line(&script.state(), record);
    script.write(record, LENGTH);
    script.line(&line);
    assert_eq!(script.answered, 0, "the walk accepts what was written");
}

/// States in which a record can be written that has a number at its bound.
fn at_bounds() -> Vec<(Written, State)> {
    let mut list = vec![(Written::T, e_open_saying_0().state)];
    let mut push = |record, state: State, alter: &dyn Fn(&mut State)| {
        let mut altered = state;
        alter(&mut altered);
        list.push((record, altered));
    };
    let t = e_open().state;
    for s in [1, 100_000] {
        push(Written::T, t, &|state| {
            state.s = 100_000;
            (state.open.s, state.open.cents) = (s, TOO_MUCH_FOR_T - 1);
        });
    }
    for fein in [0, 690_000_000, 999_999_999] {
        push(Written::T, t, &|state| state.open.fein = fein);
    }
    push(Written::T, t, &|state| state.open.says_s_follow = false);
    push(Written::T, t, &|state| state.open.ids_in_use = 40);
    push(Written::T, t, &|state| state.lines_read = 231_074);
    let f = after_t().state;
    for s in [11, 100_000] {
        push(Written::F, f, &|state| {
            (state.s, state.cents) = (s, TOO_MUCH_FOR_F - 1);
        });
    }
    for employers in [0, 12] {
        push(Written::F, f, &|state| state.employers = employers);
    }
    push(Written::F, f, &|state| (state.s, state.cents) = (0, 0));
    push(Written::F, f, &|state| state.lines_read = 231_074);
    list
}

/// The last number of employers that is fit, and the one before, with a list that is long enough.
fn many_employers(rng: &mut Rng, script: &mut Script) {
    for (record, state) in [(Written::T, e_open().state), (Written::F, after_t().state)] {
        for more in [0, 1] {
            let employers = MANY_EMPLOYERS + more;
            let state = State { employers, ..state };
            script.set_state(state);
            script.write(record, LENGTH);
            script.beyond(more, &Way::any(rng).line(&state, record));
            assert_eq!(script.answered, 0, "the walk accepts what was written");
        }
    }
}

/// "any other accepted one differs only in letter case"
fn one_byte_changed(rng: &mut Rng, script: &mut Script, record: Written, column: usize) {
    let moment = match record {
        Written::T => e_open(),
        Written::F => after_t(),
    };
    script.lent = LENT;
    script.set(&moment);
    let mut line = Way::any(rng).line(&moment.state, record);
    line[column - 1] = other_byte(rng, line[column - 1]);
    script.write(record, LENGTH);
    script.line(&line);
    assert_ne!(script.answered, 0, "column {column} was changed");
}

/// Another byte, and not the same letter; often one that might pass for it.
fn other_byte(rng: &mut Rng, own: u8) -> u8 {
    loop {
        let any = rng.below(256) as u8;
        let other = rng.pick(&[own ^ 1, own.wrapping_add(1), own ^ 0x20, b' ', b'0', any]);
        // In a script it would stand as another one.
        if other != b'#' && !other.eq_ignore_ascii_case(&own) {
            return other;
        }
    }
}
