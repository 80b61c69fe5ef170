//! The writing of T and F.

use super::any_state::any_state;
use super::calls::e_open;
use super::Q1;
use crate::calendar::Quarter;
use crate::draft::*;
use crate::edits::{Phase, Refusal};
use crate::format::Format;
use crate::layout::LENGTH;
use crate::meaning::Room;
use crate::rng::Rng;
use crate::tables::Tables;
use crate::walk::{self, Answer, LineAnswer, OpenE, Standing, State};
use crate::write::{write_f, write_t, Written};

/// A slice with something in each byte.
fn slice_of(length: usize) -> Vec<u8> {
    (0..length).map(|place| place as u8).collect()
}

/// The answer, and what is in a slice of 290 bytes then.
fn written(record: Written, state: &State) -> (Answer, Vec<u8>) {
    let mut slice = slice_of(LENGTH);
    let answer = record.write(state, &mut slice);
    (answer, slice)
}

/// This number, line 0, column 0, and the slice as it was.
fn assert_refused(record: Written, length: usize, number: u8, change: impl Fn(&mut State)) {
    let (mut state, _, _) = e_open();
    if record == Written::F {
        state.standing = Standing::Among(Phase::AfterT);
    }
    change(&mut state);
    let mut slice = slice_of(length);
    let answer = record.write(&state, &mut slice);
    assert_eq!(answer, Some(Refusal::new(number, 0, 0)));
    assert_eq!(slice, slice_of(length));
}

/// The record begins so, and has blanks after it.
fn assert_written(record: Written, start: &str, change: impl Fn(&mut State)) {
    let (mut state, _, _) = e_open();
    if record == Written::F {
        state.standing = Standing::Among(Phase::AfterT);
    }
    change(&mut state);
    let (answer, slice) = written(record, &state);
    assert_eq!(answer, None);
    let wanted = format!("{start}{}", " ".repeat(LENGTH - start.len()));
    assert_eq!(String::from_utf8(slice).unwrap(), wanted);
}

/// "Example: FEIN 012345678, two employees with 1,234.56 and 0.44", typed by hand from the tables
/// of document 000.
#[test]
fn records_of_the_example() {
    let file = example(Q1, Q1).file();
    let mut tables = Tables::zero(Room {
        ids: 2,
        employers: 1,
    });
    let (ids, list) = tables.lend(Room {
        ids: 2,
        employers: 1,
    });
    let (mut state, _) = walk::open(Format::Pfml, Q1, ids, list);
    for line in file.chunks(LENGTH + 1).take(4) {
        assert_eq!(walk::line(&mut state, ids, list, line).refusal, None);
    }
    let mut slice = [0; LENGTH];
    assert_eq!(write_t(&state, &mut slice), None);
    assert_eq!(slice[..40], *b"T0000002PFML012345678     00000000123500");
    assert_eq!(slice[40..], [b' '; 250]);
    let line = [&slice[..], b"\n"].concat();
    assert_eq!(walk::line(&mut state, ids, list, &line).refusal, None);
    assert_eq!(write_f(&state, &mut slice), None);
    let wanted = b"F00000000020000000001PFML               000000000123500";
    assert_eq!(slice[..55], *wanted);
    assert_eq!(slice[55..], [b' '; 235]);
    let line = [&slice[..], b"\n"].concat();
    assert_eq!(walk::line(&mut state, ids, list, &line).refusal, None);
    assert_eq!(walk::end(&mut state, ids, list), None);
}

const FOURTEEN: u64 = 100_000_000_000_000;
const FIFTEEN: u64 = 1_000_000_000_000_000;

/// Every number at its bound.
#[test]
fn greatest_records() {
    assert_written(
        Written::T,
        "T0100000PFML999999999     99999999999999",
        |state| {
            (state.s, state.open.s) = (100_000, 100_000);
            (state.open.fein, state.open.cents) = (999_999_999, FOURTEEN - 1);
            // No table is lent that bounds these two.
            (state.open.ids_in_use, state.employers) = (u64::MAX, 65_536);
            (state.lines_read, state.cents) = (231_074, 100_000 * MOST_WAGES);
        },
    );
    assert_written(
        Written::F,
        "F00001000000000065536PFML               999999999999999",
        |state| {
            (state.s, state.employers) = (100_000, 65_536);
            (state.cents, state.lines_read) = (FIFTEEN - 1, 231_074);
            // They count for nothing when no E is open.
            state.open = OpenE {
                cents: u64::MAX,
                ..state.open
            };
        },
    );
}

#[test]
fn least_records() {
    assert_written(
        Written::T,
        "T0000000PFML000000000     00000000000000",
        |state| state.open = OpenE::default(),
    );
    assert_written(
        Written::F,
        "F00000000000000000000PFML               000000000000000",
        |state| (state.s, state.employers, state.cents) = (0, 0, 0),
    );
    // An E saying 0 that has S records all the same, by its caller.
    assert_written(
        Written::T,
        "T0000002PFML000000077     00000000000900",
        |state| state.open.says_s_follow = false,
    );
}

/// "in order: 72": each of its reasons that no table gives.
#[test]
fn unfit_states() {
    for record in Written::BOTH {
        for length in [LENGTH, 0, 289] {
            let refused = |change: &dyn Fn(&mut State)| {
                assert_refused(record, length, 72, change);
            };
            refused(&|state| state.employers = 65_537);
            refused(&|state| state.s = 100_001);
            refused(&|state| state.cents = 3 * MOST_WAGES + 1);
            refused(&|state| state.lines_read = 231_075);
            refused(&|state| state.held = Quarter::new(2026, 4));
            refused(&|state| state.quarter_of_a = Quarter::new(2024, 12));
            refused(&|state| state.format = Format::Unknown);
            refused(&|state| state.standing = Standing::Refused(Refusal::new(66, 1, 1)));
            refused(&|state| state.standing = Standing::Refused(Refusal::new(80, 0, 0)));
        }
    }
    let refused = |change: &dyn Fn(&mut State)| assert_refused(Written::T, LENGTH, 72, change);
    refused(&|state| state.employers = 0);
    refused(&|state| state.open.fein = 1_000_000_000);
    refused(&|state| state.open.s = 4);
    refused(&|state| state.open.cents = 2 * MOST_WAGES + 1);
}

/// "slice not 290 bytes 83", before all that goes by the state.
#[test]
fn other_lengths() {
    for record in Written::BOTH {
        for length in [0, 1, 289, 291, 292, 300] {
            assert_refused(record, length, 83, |_| {});
            assert_refused(record, length, 83, |state| {
                state.standing = Standing::Accepted;
            });
            assert_refused(record, length, 83, |state| {
                (state.open.s, state.open.cents) = (0, 0);
                (state.s, state.cents) = (11, FIFTEEN);
            });
        }
    }
}

/// "T with no E open, F not right after a T, or a refused or ended walk 80", before the sums.
#[test]
fn out_of_place() {
    let among = Standing::Among;
    let refused = |number| Standing::Refused(Refusal::new(number, 3, 4));
    for standing in [
        among(Phase::BeforeA),
        among(Phase::AfterA),
        among(Phase::AfterF),
        Standing::Accepted,
        refused(44),
        refused(70),
    ] {
        for record in Written::BOTH {
            assert_refused(record, LENGTH, 80, |state| {
                state.standing = standing;
                (state.open.s, state.open.cents) = (0, FOURTEEN);
                (state.s, state.cents) = (11, FIFTEEN);
            });
        }
    }
    assert_refused(Written::T, LENGTH, 80, |state| {
        state.standing = among(Phase::AfterT)
    });
    assert_refused(Written::F, LENGTH, 80, |state| {
        state.standing = among(Phase::EOpen)
    });
}

/// "T with no S under an E saying 1 81"
#[test]
fn none_though_e_says_1() {
    assert_refused(Written::T, LENGTH, 81, |state| {
        (state.open.s, state.open.cents) = (0, 0);
        (state.s, state.cents) = (11, FIFTEEN);
    });
}

/// "T sum of 10^14 or more, F sum of 10^15 or more 82"
#[test]
fn too_great_sums() {
    for cents in [FOURTEEN, FOURTEEN + 1, 2 * MOST_WAGES] {
        assert_refused(Written::T, LENGTH, 82, |state| state.open.cents = cents);
    }
    for cents in [FIFTEEN, FIFTEEN + 1, 100_000 * MOST_WAGES] {
        assert_refused(Written::F, LENGTH, 82, |state| {
            (state.s, state.cents) = (100_000, cents);
        });
    }
}

/// What the walk answers to a line in this state, lent tables that are long enough.
fn line_answer(state: &State, line: &[u8]) -> LineAnswer {
    let mut state = *state;
    // Which ids are in use matters to no T or F.
    state.open.ids_in_use = state.open.ids_in_use.min(5);
    let room = Room {
        ids: 5,
        employers: state.employers.min(65_537) as usize,
    };
    let mut tables = Tables::zero(room);
    let (ids, list) = tables.lend(room);
    walk::line(&mut state, ids, list, line)
}

/// Any state, at times with sums near the bounds of the columns or with no S under its E.
fn state_to_write(rng: &mut Rng) -> State {
    let mut state = any_state(rng);
    let more = rng.below(3);
    if rng.one_in(4) {
        (state.s, state.cents) = (11, FIFTEEN - 1 + more);
    }
    if rng.one_in(4) {
        state.s = state.s.max(2);
        (state.open.s, state.open.cents) = (2, FOURTEEN - 1 + more);
    }
    if rng.one_in(8) {
        (state.open.s, state.open.cents) = (0, 0);
    }
    state
}

/// What was written is accepted with each end, in capitals and in small letters.
fn assert_accepted(state: &State, record: Vec<u8>) {
    assert!(!record.iter().any(u8::is_ascii_lowercase));
    for end in ENDS {
        for text in [record.clone(), record.to_ascii_lowercase()] {
            let answer = line_answer(state, &[&text, end].concat());
            let wanted = LineAnswer {
                taken: LENGTH + end.len(),
                refusal: None,
            };
            assert_eq!(answer, wanted);
        }
    }
}

/// "Given only then": a record with the same numbers, as far as its columns hold them.
fn assert_none_accepted(state: &State, record: Written) {
    let mut text = match record {
        Written::T => record_t(state.open.fein, state.open.s, state.open.cents),
        Written::F => record_f(state.s, state.employers, state.cents),
    };
    text.push(b'\n');
    assert!(line_answer(state, &text).refusal.is_some());
}

/// In every state a record is written exactly if the walk accepts one, and then it accepts that.
#[test]
fn the_walk_accepts_what_was_written() {
    let mut times = [0; 256];
    for k in 0..20_000 {
        let mut rng = Rng::of(31, 0, k);
        let state = state_to_write(&mut rng);
        let record = rng.pick(&Written::BOTH);
        let (answer, slice) = written(record, &state);
        times[usize::from(answer.map_or(0, |refusal| refusal.number))] += 1;
        match answer {
            None => assert_accepted(&state, slice),
            Some(_) => {
                assert_eq!(slice, slice_of(LENGTH));
                assert_none_accepted(&state, record);
            }
        }
    }
    for number in [0, 72, 80, 81, 82] {
        assert!(times[number] > 100, "{number}: {}", times[number]);
    }
}

/// "any other accepted one differs only in letter case": no byte may be another.
#[test]
fn one_byte_changed() {
    let (open, _, _) = e_open();
    let after = State {
        standing: Standing::Among(Phase::AfterT),
        ..open
    };
    for (record, state) in [(Written::T, open), (Written::F, after)] {
        let (_, mut line) = written(record, &state);
        line.push(b'\n');
        for place in 0..LENGTH {
            let own = line[place];
            for byte in 0..=255_u8 {
                line[place] = byte;
                let accepted = line_answer(&state, &line).refusal.is_none();
                assert_eq!(accepted, byte.eq_ignore_ascii_case(&own));
            }
            line[place] = own;
        }
    }
}

/// In files that break no edit each T and F is the one that would have been written.
#[test]
fn records_of_valid_files() {
    for k in 0..1_000 {
        let draft = valid(&mut Rng::of(32, 0, k), SMALL);
        let room = Room {
            ids: 3,
            employers: 3,
        };
        let mut tables = Tables::zero(room);
        let (ids, list) = tables.lend(room);
        let (mut state, _) = walk::open(Format::Pfml, draft.held, ids, list);
        for line in &draft.lines {
            for record in Written::BOTH {
                let (answer, slice) = written(record, &state);
                let is_next = line.letter() == record.letter();
                // T may be written before there is every S, and F before the next E.
                assert!(answer.is_none() || !is_next);
                assert!(!is_next || slice == line.text.to_ascii_uppercase());
            }
            let bytes = [&line.text[..], &line.end[..]].concat();
            assert_eq!(walk::line(&mut state, ids, list, &bytes).refusal, None);
        }
    }
}
