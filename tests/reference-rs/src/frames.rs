//! The frames of a walk, written into a lent buffer.

use crate::exports::unfit;
use crate::meaning::{Accepted, Entry, Outcome};
use crate::walk::{Standing, State};

/// No id table is lent, so none is compared.
const NOT_LENT: usize = usize::MAX;

/// The bytes written; or a number: 72, 87 if the walk has not ended, 88 if the buffer is too small,
/// in this order, and the buffer is as it was.
pub fn write(state: &State, list: &[Entry], buffer: &mut [u8]) -> Result<usize, u8> {
    if unfit(state, NOT_LENT, list.len()) {
        return Err(72);
    }
    let outcome = match state.standing {
        Standing::Among(_) => return Err(87),
        Standing::Accepted => accepted(state, list),
        Standing::Refused(refusal) => Outcome::Refused(refusal),
    };
    let frames = state.format.frames(&outcome);
    let front = buffer.get_mut(..frames.len()).ok_or(88)?;
    front.copy_from_slice(&frames);
    Ok(frames.len())
}

fn accepted(state: &State, list: &[Entry]) -> Outcome {
    let used = &list[..state.employers as usize];
    Outcome::Accepted(Accepted {
        entries: used.iter().map(low_bytes).collect(),
        s_count: state.s,
        e_count: state.employers,
        cents: state.cents,
    })
}

/// Of a number that only a caller can have put into the list, and that is too large for its bytes,
/// the low ones are told: four of a FEIN, a count and a date, one of a flag.
fn low_bytes(entry: &Entry) -> Entry {
    let four = |number: u64| number & u64::from(u32::MAX);
    let one = |number: u64| number & u64::from(u8::MAX);
    Entry {
        fein: four(entry.fein),
        count: four(entry.count),
        cents: entry.cents,
        amended: one(entry.amended),
        final_return: one(entry.final_return),
        cease_date: four(entry.cease_date),
    }
}

#[cfg(test)]
mod tests {
    use super::*;
    use crate::scripts::moments::{in_each_phase, refused};

    fn written(state: &State, list: &[Entry], length: usize) -> (Result<usize, u8>, String) {
        let mut buffer = vec![b'.'; length];
        let answer = write(state, list, &mut buffer);
        (answer, String::from_utf8(buffer).unwrap())
    }

    /// By hand: two employers with 2 and 3 employees, 3.00 and 3.75; the first return is amended,
    /// the second final, on 03312026 (hex 32899A).
    #[test]
    fn frames_in_each_phase() {
        let moments = in_each_phase();
        for moment in &moments[..5] {
            let (answer, buffer) = written(&moment.state, &moment.tables.list, 20);
            assert_eq!((answer, buffer), (Err(87), ".".repeat(20)));
        }
        let frames = "0200BC614E00000002000000000000012C010000000000\n\
                      020000004D00000003000000000000017700010032899A\n\
                      00000000050000000200000000000002A3\n";
        let (state, list) = (&moments[5].state, &moments[5].tables.list);
        assert_eq!(written(state, list, 129), (Ok(129), frames.to_string()));
        let more = format!("{frames}..");
        assert_eq!(written(state, &list[..2], 131), (Ok(129), more));
        assert_eq!(written(state, list, 128), (Err(88), ".".repeat(128)));
        assert_eq!(written(state, &list[..1], 0), (Err(72), String::new()));
        let refusal = "FF2C000000060006\n";
        let state = &refused(44).state;
        assert_eq!(written(state, &[], 17), (Ok(17), refusal.to_string()));
        assert_eq!(written(state, &[], 16), (Err(88), ".".repeat(16)));
        assert_eq!(
            written(&refused(71).state, &[], 0),
            (Err(72), String::new())
        );
    }

    #[test]
    fn numbers_too_large_for_their_bytes() {
        let moments = in_each_phase();
        let mut list = moments[5].tables.list.clone();
        list[0].fein = 9_999_999_999;
        list[0].count = (1 << 32) + 5;
        list[0].cents = u64::MAX;
        list[0].amended = 256;
        list[0].final_return = 511;
        list[0].cease_date = (1 << 32) + 7;
        let (answer, buffer) = written(&moments[5].state, &list, 129);
        assert_eq!(answer, Ok(129));
        let wanted = "02540BE3FF00000005FFFFFFFFFFFFFFFF00FF00000007";
        assert_eq!(&buffer[..46], wanted);
    }
}
