//! The readings here held against each other: on one input the meaning by notes, the meaning by
//! scanning and the walk have to agree, and so have the walk's tables, with the whole file lent or
//! in pieces, whatever the tables held before.

use crate::ack;
use crate::calendar::Quarter;
use crate::edits::{Phase, Refusal};
use crate::format::Format;
use crate::lines::lines_of;
use crate::meaning::{acknowledge, acknowledge_by_scanning, Entry, Outcome, Room};
use crate::rng::Rng;
use crate::tables::Tables;
use crate::walk::{self, Answer, Standing, State};

/// Longer files are scanned by nobody: that takes the square of their length.
const LONGEST_SCANNED: usize = 40_000;

/// Tables as a caller may lend them: with anything in them.
fn used(room: Room) -> Tables {
    let entry = Entry {
        fein: 12_345_678,
        count: u64::MAX,
        cents: 7,
        amended: 1,
        final_return: u64::MAX,
        cease_date: 3_312_026,
    };
    Tables {
        ids: vec![u32::MAX; room.ids],
        list: vec![entry; room.employers],
    }
}

/// Tells what disagrees about an input, under the program's tables and under small ones.
pub fn check(input: &[u8], rng: &mut Rng) -> Result<(), String> {
    let Some((held, file)) = ack::header(input) else {
        return Ok(());
    };
    let small = Room {
        ids: rng.index(4),
        employers: rng.index(4),
    };
    for room in [ack::ROOM, small] {
        let meaning = acknowledge(held, room, file);
        if file.len() <= LONGEST_SCANNED && acknowledge_by_scanning(held, room, file) != meaning {
            return Err(format!("notes and scanning, {room:?}"));
        }
        check_walk(held, room, file, &meaning, rng).map_err(|e| format!("{e}, {room:?}"))?;
    }
    Ok(())
}

fn check_walk(
    held: Quarter,
    room: Room,
    file: &[u8],
    meaning: &Outcome,
    rng: &mut Rng,
) -> Result<(), String> {
    let mut tables = used(room);
    let (state, answer) = walk::whole(Format::Pfml, held, &mut tables.ids, &mut tables.list, file);
    check_end(held, room, file, meaning, &state, answer, &tables)?;
    let (in_pieces, again, other) = walk_in_pieces(held, room, file, rng)?;
    if in_pieces != state || again != answer || other != tables {
        return Err("the walk in pieces".to_string());
    }
    Ok(())
}

/// The state and tables that the paper states for the end of a walk.
fn check_end(
    held: Quarter,
    room: Room,
    file: &[u8],
    meaning: &Outcome,
    state: &State,
    answer: Answer,
    tables: &Tables,
) -> Result<(), String> {
    match meaning {
        Outcome::Accepted(accepted) => {
            // "Acceptance leaves the employer list, in file order: FEIN, S count, cents; later
            // entries zero." "01's table rules hold for the longer entry".
            let mut wanted = Tables::zero(room);
            wanted.list[..accepted.entries.len()].copy_from_slice(&accepted.entries);
            let told = state.standing == Standing::Accepted
                && state.held == held
                && state.lines_read == lines_of(file).count() as u64
                && state.employers == accepted.e_count
                && state.s == accepted.s_count
                && state.cents == accepted.cents;
            if answer.is_some() || !told || *tables != wanted {
                return Err("acceptance by the walk".to_string());
            }
        }
        Outcome::Refused(refusal) => {
            let wanted = match refusal.number {
                70 => used(room),
                _ => Tables::zero(room),
            };
            let told = state.standing == Standing::Refused(*refusal) && state.held.year == 0;
            if answer != Some(*refusal) || !told || *tables != wanted {
                return Err("refusal by the walk".to_string());
            }
        }
    }
    Ok(())
}

/// "calls that are each lent the file from where the last one ended: all that remains, or at least
/// 292 bytes". What the paper says of the id table is looked at after every call.
fn walk_in_pieces(
    held: Quarter,
    room: Room,
    file: &[u8],
    rng: &mut Rng,
) -> Result<(State, Answer, Tables), String> {
    let mut tables = used(room);
    let (mut state, opening) = walk::open(Format::Pfml, held, &mut tables.ids, &mut tables.list);
    let mut rest = file;
    let mut refusal: Option<Refusal> = opening;
    while !rest.is_empty() && refusal.is_none() {
        let lent = rest
            .len()
            .min(rng.pick(&[292, 293, 500, rest.len().max(292)]));
        let answer = walk::line(&mut state, &mut tables.ids, &mut tables.list, &rest[..lent]);
        refusal = answer.refusal;
        rest = &rest[answer.taken..];
        // Long tables are not looked at after every one of many lines.
        if room.ids < 100 && opening.is_none() && !id_table_is_as_stated(&state, &tables.ids) {
            return Err("the id table behind a line".to_string());
        }
    }
    let answer = walk::end(&mut state, &mut tables.ids, &mut tables.list);
    Ok((state, answer, tables))
}

/// "While an E is open the id table holds its numbers in file order, then zeros. When no E is open
/// the id table is all zeros."
fn id_table_is_as_stated(state: &State, ids: &[u32]) -> bool {
    let in_use = match state.standing {
        Standing::Among(Phase::EOpen) => state.open.ids_in_use as usize,
        _ => 0,
    };
    let (numbers, rest) = ids.split_at(in_use);
    numbers.iter().all(|id| *id != 0) && rest.iter().all(|id| *id == 0)
}
