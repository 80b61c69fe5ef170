//! Each bound of 72 at its value and one off, in each of the seven phases, with line and with end;
//! and with a record written, where what the tables bound is free.

use super::calls::{line_then_end, record_for};
use super::moments::{in_each_phase, HELD, LENT};
use super::Scene;
use crate::calendar::Quarter;
use crate::draft::MOST_WAGES;
use crate::format::Format;
use crate::layout::LENGTH;
use crate::walk::{MoreOfE, MoreOfFile, OpenE, State};

type Alter = Box<dyn Fn(&mut State)>;

const MOST_S: u64 = 100_000;

pub fn add(scenes: &mut Vec<Scene>) {
    for alter in alterations() {
        for moment in in_each_phase() {
            let mut altered = moment;
            alter(&mut altered.state);
            scenes.push(Box::new(move |rng, script| {
                script.lent = LENT;
                script.set_state(altered.state);
                script.write(record_for(rng, altered.state.standing), LENGTH);
                line_then_end(rng, script, &altered);
            }));
        }
    }
}

fn alterations() -> Vec<Alter> {
    let mut list: Vec<Alter> = vec![Box::new(|_| {})];
    counts(&mut list);
    sums_of_file(&mut list);
    sums_of_open_e(&mut list);
    open_e(&mut list);
    quarters_held(&mut list);
    quarters_of_a(&mut list);
    current_quarters(&mut list);
    push(&mut list, |state| state.format = Format::Unknown);
    untested(&mut list);
    list
}

fn push(list: &mut Vec<Alter>, alter: impl Fn(&mut State) + 'static) {
    list.push(Box::new(alter));
}

fn around(bound: u64) -> [u64; 3] {
    [bound - 1, bound, bound + 1]
}

/// "ids in use exceed the id table; employers exceed the list [...]; S in the file exceed 100,000 or
/// are fewer than the open E's; [...] lines read exceed 231,074"
fn counts(list: &mut Vec<Alter>) {
    for ids in around(LENT.ids as u64) {
        push(list, move |state| state.open.ids_in_use = ids);
    }
    for employers in around(LENT.employers as u64) {
        push(list, move |state| state.employers = employers);
    }
    for s in around(MOST_S) {
        push(list, move |state| state.s = s);
    }
    for s in around(5) {
        push(list, move |state| {
            state.s = 5;
            state.open.s = s;
        });
    }
    for lines in around(231_074) {
        push(list, move |state| state.lines_read = lines);
    }
}

/// "either wage sum exceeds its S count times 99,999,999,999,999": that of the file.
fn sums_of_file(list: &mut Vec<Alter>) {
    for s in [1, 5, MOST_S] {
        for cents in around(s * MOST_WAGES) {
            push(list, move |state| {
                state.s = s;
                state.cents = cents;
                state.open.s = s;
            });
        }
    }
    for cents in [0, 1] {
        push(list, move |state| {
            (state.s, state.cents) = (0, cents);
            (state.open.s, state.open.cents) = (0, 0);
        });
    }
}

/// The same of the open E; the file's sum may be less.
fn sums_of_open_e(list: &mut Vec<Alter>) {
    for s in [1, 2, MOST_S] {
        for cents in around(s * MOST_WAGES) {
            push(list, move |state| {
                state.s = MOST_S;
                (state.open.s, state.open.cents) = (s, cents);
            });
        }
    }
    for cents in [0, 1] {
        push(list, move |state| {
            (state.open.s, state.open.cents) = (0, cents)
        });
    }
}

/// "an E is open and there is no employer; the open E's FEIN exceeds 999,999,999"
fn open_e(list: &mut Vec<Alter>) {
    for employers in [0, 1] {
        push(list, move |state| state.employers = employers);
    }
    for fein in around(999_999_999) {
        push(list, move |state| state.open.fein = fein);
    }
    // That is no number, and never unfit.
    push(list, |state| {
        state.open.says_s_follow = !state.open.says_s_follow
    });
}

/// "in a walk not refused, the quarter held [...] is none that this paper allows"
fn quarters_held(list: &mut Vec<Alter>) {
    let years = [
        (0, 3),
        (2024, 12),
        (2025, 3),
        (9999, 12),
        (10_000, 3),
        (99_999, 12),
    ];
    let months = (0..=13).chain([99]).map(|month| (2026, month));
    for (year, month) in years.into_iter().chain(months) {
        push(list, move |state| {
            state.held = Quarter::new(year, month);
            state.quarter_of_a = Quarter::new(2025, 3);
        });
    }
}

/// "or A's once A is read"
fn quarters_of_a(list: &mut Vec<Alter>) {
    let around_held = [
        (2026, 6),
        (2026, 9),
        (2026, 12),
        (2027, 3),
        (2025, 12),
        (10_000, 3),
    ];
    let around_first = [(0, 3), (2024, 12), (2025, 3)];
    let months = (0..=13).chain([99]).map(|month| (2025, month));
    for (year, month) in around_held.into_iter().chain(around_first).chain(months) {
        push(list, move |state| {
            state.held = HELD;
            state.quarter_of_a = Quarter::new(year, month);
        });
    }
}

/// "72 reads A's quarter likewise": the current quarter and the one after it, at the end of a year
/// and of the last one.
fn current_quarters(list: &mut Vec<Alter>) {
    let rows = [
        ((2026, 12), [(2027, 3), (2027, 6)]),
        ((9999, 9), [(9999, 12), (10_000, 3)]),
        ((9999, 12), [(9999, 12), (10_000, 3)]),
    ];
    for ((held_year, held_month), quarters) in rows {
        for (year, month) in quarters {
            push(list, move |state| {
                state.held = Quarter::new(held_year, held_month);
                state.quarter_of_a = Quarter::new(year, month);
            });
        }
    }
}

/// What counts in some walks only: an open E's numbers, a quarter, an employer. What PFML does not
/// use counts in none.
fn untested(list: &mut Vec<Alter>) {
    let wild = OpenE {
        fein: 9_999_999_999,
        says_s_follow: true,
        s: 9_999_999_999,
        cents: 9_999_999_999_999_999_999,
        ids_in_use: 9_999_999_999,
        more: MoreOfE::default(),
    };
    push(list, move |state| state.open = wild);
    push(list, |state| state.quarter_of_a = Quarter::new(99_999, 99));
    push(list, |state| {
        state.held = Quarter::new(0, 0);
        state.quarter_of_a = Quarter::new(0, 0);
    });
    // One sum may exceed the other.
    push(list, |state| {
        (state.s, state.cents) = (5, 0);
        (state.open.s, state.open.cents) = (5, 5 * MOST_WAGES);
    });
    push(list, |state| {
        state.open.more = MoreOfE {
            second: u64::MAX,
            others: u64::MAX,
            nearest: u64::MAX,
            noted: true,
            account: [u64::MAX; 2],
        };
        state.more = MoreOfFile {
            second: u64::MAX,
            others: u64::MAX,
            notes: u64::MAX,
        };
    });
}

#[cfg(test)]
mod tests {
    use super::*;
    use crate::scripts::moments::e_open;
    use crate::walk::unfit;
    use crate::write::write_t;

    /// Which alterations of a walk with an E open are fit (`f`) and which are unfit (`u`), by hand
    /// and in the order of `alterations`; what the two tables bound is given.
    fn by_hand(ids: &str, employers: &str) -> String {
        let around = "ffu";
        let months = "uuufuufuufuufu";
        let parts = [
            // Counts: ids, employers, S records, those of the open E, lines.
            &["f", ids, employers, &around.repeat(3)].concat(),
            // Sums.
            &around.repeat(3),
            "fu",
            &around.repeat(3),
            "fu",
            // No employer, one; FEIN; the other flag.
            "uf",
            around,
            "f",
            // The quarter held, A's.
            "uuffuu",
            months,
            "u",
            "ffuufu",
            "uuf",
            months,
            "u",
            // The current quarter, and the one after it.
            "fu",
            "fu",
            "fu",
            // A format that is none.
            "u",
            // What counts in some walks only, or in none.
            "uuuff",
        ];
        parts.concat()
    }

    fn found(is_unfit: impl Fn(&State) -> bool) -> String {
        let found = alterations().into_iter().map(|alter| {
            let mut state = e_open().state;
            alter(&mut state);
            ["f", "u"][usize::from(is_unfit(&state))]
        });
        found.collect()
    }

    #[test]
    fn by_hand_with_an_e_open() {
        let line_or_end = found(|state| unfit(state, LENT.ids, LENT.employers));
        assert_eq!(line_or_end, by_hand("ffu", "ffu"));
    }

    #[test]
    fn by_hand_with_no_table_lent() {
        let writing = found(|state| {
            let answer = write_t(state, &mut [0; LENGTH]);
            answer.is_some_and(|refusal| refusal.number == 72)
        });
        assert_eq!(writing, by_hand("fff", "fff"));
    }
}
