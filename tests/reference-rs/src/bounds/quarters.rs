//! Years, periods, quarters and cease dates.

use super::{refused, List, Q1};
use crate::calendar::{days_in, Quarter};
use crate::draft::*;
use crate::gen::Meant;

const MONTHS: [u64; 4] = [3, 6, 9, 12];

pub fn add(list: &mut List) {
    list.name("quarters of a");
    quarters_of_a(list);
    list.name("final returns");
    final_returns(list);
    list.name("kinds of return");
    kinds_of_return(list);
    list.name("quarters held");
    quarters_held(list);
    list.name("quarters of e and s");
    quarters_of_e_and_s(list);
    list.name("periods");
    periods(list);
    list.name("days around quarters");
    days_around_quarters(list);
    list.name("months and days");
    months_and_days(list);
    list.name("leap days");
    leap_days(list);
}

/// Every quarter against the last closed one; years 2024, 2025 and 9999, the year beyond, and after
/// 12 the one beyond that.
fn quarters_of_a(list: &mut List) {
    for held_year in [2025, 2026, 9998, 9999] {
        for held in MONTHS.map(|month| Quarter::new(held_year, month)) {
            let years = [0, 2024, 2025, 2026, held_year - 1, held_year, held_year + 1];
            let beyond = (held.month == 12).then_some(held_year + 2);
            for year in years.into_iter().chain(beyond).filter(|year| *year <= 9999) {
                for month in MONTHS {
                    let draft = zero_return(held, Quarter::new(year, month));
                    list.add_unless(&draft, refusal_of_a(held, year, month));
                }
            }
        }
    }
}

fn refusal_of_a(held: Quarter, year: u64, month: u64) -> Option<Meant> {
    let behind_12 = u64::from(held.month == 12);
    // How many quarters it is after the last closed one.
    let steps = (year * 4 + month / 3) as i64 - (held.year * 4 + held.month / 3) as i64;
    if year < 2025 {
        Some(refused(38, 1, 2))
    } else if year > held.year + behind_12 {
        Some(refused(39, 1, 2))
    } else if steps > 1 {
        Some(refused(41, 1, 19))
    } else {
        None
    }
}

/// Each flag of a final return, with a cease date and without, in a file of the last closed quarter
/// and of the current one, under every last closed quarter of a year, and of the last year.
fn final_returns(list: &mut List) {
    for held in [
        (2026, 3),
        (2026, 6),
        (2026, 9),
        (2026, 12),
        (9999, 9),
        (9999, 12),
    ] {
        let held = Quarter::new(held.0, held.1);
        for quarter in [Some(held), held.current_after()].into_iter().flatten() {
            let day = quarter.month * 1_000_000 + 150_000 + quarter.year;
            for (flag, date) in [(b"0", 0), (b"0", day), (b"1", 0), (b"1", day), (b"2", day)] {
                let mut draft = zero_return(held, quarter);
                draft.lines[1].put(282, flag);
                draft.lines[1].put_number(283, 290, date);
                let refusal = match (flag, date) {
                    (b"2", _) => Some(refused(47, 2, 282)),
                    (b"0", _) if quarter != held => Some(refused(65, 2, 282)),
                    (b"0", 1..) => Some(refused(50, 2, 283)),
                    (b"1", 0) => Some(refused(51, 2, 283)),
                    _ => None,
                };
                list.add_unless(&draft, refusal);
            }
        }
    }
    // Of two employers of the current quarter each must close.
    for closing in [[true, true], [true, false], [false, true], [false, false]] {
        let employ = |fein| Employer {
            fein,
            employees: vec![(5, 7)],
        };
        let mut draft = tidy(Q1, Quarter::new(2026, 6), &[employ(11), employ(22)]);
        for (place, _) in [1, 4]
            .into_iter()
            .zip(closing)
            .filter(|(_, closes)| !closes)
        {
            draft.lines[place].put(282, b"000000000");
        }
        let refusal = match closing {
            [true, true] => None,
            [true, false] => Some(refused(65, 5, 282)),
            [false, _] => Some(refused(65, 2, 282)),
        };
        list.add_unless(&draft, refusal);
    }
}

/// Headers of every month from 00 to 13, years around the first and last.
fn quarters_held(list: &mut List) {
    for year in [0, 2024, 2025, 2026, 9999] {
        for month in 0..=13 {
            let good = year >= 2025 && MONTHS.contains(&month);
            let mut draft = zero_return(Quarter::new(year, month), Quarter::new(2025, 3));
            list.add_if(&draft, good, refused(70, 0, 0));
            // The same without a file after it.
            draft.lines.clear();
            let meant = match good {
                true => refused(5, 1, 1),
                false => refused(70, 0, 0),
            };
            list.add(&draft, meant);
        }
    }
}

/// E's and S's quarters against A's, with all of them closed.
fn quarters_of_e_and_s(list: &mut List) {
    let held = Quarter::new(2029, 12);
    // Line (from 0), the year's column, the period's column: the lesser is tested first.
    for columns in [(1, 2, 188), (2, 48, 46)] {
        for own in MONTHS {
            for year in [0, 2024, 2025, 2026, 2027, 9999] {
                for month in MONTHS {
                    let (place, year_at, period_at) = columns;
                    let mut draft = example(held, Quarter::new(2026, own));
                    draft.lines[place].put_number(year_at, year_at + 3, year);
                    draft.lines[place].put_number(period_at, period_at + 1, month);
                    list.add_unless(&draft, refusal_of_e_or_s(columns, year, month == own));
                }
            }
        }
    }
}

fn refusal_of_e_or_s(
    (place, year_at, period_at): (usize, usize, usize),
    year: u64,
    own_period: bool,
) -> Option<Meant> {
    let line = place as u64 + 1;
    let by_year = match year {
        2026 => None,
        0..=2024 => Some(refused(38, line, year_at as u64)),
        _ => Some(refused(42, line, year_at as u64)),
    };
    let by_period = (!own_period).then(|| refused(43, line, period_at as u64));
    match year_at < period_at {
        true => by_year.or(by_period),
        false => by_period.or(by_year),
    }
}

/// Every two digits as a period, in A, E and S; all quarters of 2026 are closed.
fn periods(list: &mut List) {
    let held = Quarter::new(2026, 12);
    for (place, first) in [(0, 19), (1, 188), (2, 46)] {
        let line = place as u64 + 1;
        for period in 0..100 {
            let mut draft = example(held, Q1);
            draft.lines[place].put_number(first, first + 1, period);
            let refusal = match (period, place) {
                (3, _) => None,
                // A is fine, and then the E after it is not as A.
                (6 | 9 | 12, 0) => Some(refused(43, 2, 188)),
                (6 | 9 | 12, _) => Some(refused(43, line, first as u64)),
                _ => Some(refused(40, line, first as u64)),
            };
            list.add_unless(&draft, refusal);
        }
    }
}

/// Two employers, with and without S records, of every two kinds of return: amended or not, and not
/// final, or final on the first or the last day of the quarter; in the last closed quarter and, if
/// both are final, in the current one.
fn kinds_of_return(list: &mut List) {
    for held in MONTHS.map(|month| Quarter::new(2026, month)) {
        for quarter in [Some(held), held.current_after()].into_iter().flatten() {
            let (month, year) = (quarter.month, quarter.year);
            let first = (month - 2) * 1_000_000 + 10_000 + year;
            let last = month * 1_000_000 + days_in(month, year) * 10_000 + year;
            let dates = if quarter == held {
                vec![0, first, last]
            } else {
                vec![first, last]
            };
            let of_date = |date: &u64| [(0, *date), (1, *date)];
            let kinds: Vec<(u64, u64)> = dates.iter().flat_map(of_date).collect();
            for one in &kinds {
                for other in &kinds {
                    list.add(&of_kinds(held, quarter, [*one, *other]), Meant::Accepted);
                }
            }
        }
    }
}

/// Each kind is the amended flag, and the date of a final return or 0.
fn of_kinds(held: Quarter, quarter: Quarter, kinds: [(u64, u64); 2]) -> Draft {
    let employ = |fein, employees| Employer { fein, employees };
    let employers = [employ(11, vec![(5, 7)]), employ(22, Vec::new())];
    let mut draft = tidy(held, quarter, &employers);
    for (place, (amended, date)) in draft.places(b'E').into_iter().zip(kinds) {
        let e = &mut draft.lines[place];
        e.put_number(187, 187, amended);
        e.put_number(282, 282, u64::from(date != 0));
        e.put_number(283, 290, date);
    }
    draft
}

/// A file whose one employer gives a final return on this date, MMDDYYYY.
fn ceased(quarter: Quarter, date: &str) -> Draft {
    let mut draft = zero_return(Quarter::new(9999, 12), quarter);
    draft.lines[1].put(282, b"1");
    draft.lines[1].put(283, date.as_bytes());
    draft
}

/// The first and last day of each quarter, and the days next to them.
fn days_around_quarters(list: &mut List) {
    // Month, first and last day, last day of the quarter before, first of the next; with the years
    // of these two as differences.
    let rows = [
        (3, ["0101", "0331", "1231", "0401"], [-1, 0]),
        (6, ["0401", "0630", "0331", "0701"], [0, 0]),
        (9, ["0701", "0930", "0630", "1001"], [0, 0]),
        (12, ["1001", "1231", "0930", "0101"], [0, 1]),
    ];
    for year in [2025_i64, 2026, 2028, 9998] {
        for (month, [first, last, before, after], [down, up]) in rows {
            let quarter = Quarter::new(year as u64, month);
            for (day, of_year, inside) in [
                (first, year, true),
                (last, year, true),
                (before, year + down, false),
                (after, year + up, false),
                (first, year - 1, false),
                (last, year + 1, false),
            ] {
                let draft = ceased(quarter, &format!("{day}{of_year:04}"));
                list.add_if(&draft, inside, refused(49, 2, 283));
            }
        }
    }
}

/// Days of the months of a year that is no leap year.
const DAYS: [u64; 12] = [31, 28, 31, 30, 31, 30, 31, 31, 30, 31, 30, 31];

/// Many months and days, dates and others.
fn months_and_days(list: &mut List) {
    let quarters = [
        (2025, 3),
        (2028, 3),
        (2026, 6),
        (2026, 9),
        (2026, 12),
        (2100, 3),
    ];
    for (year, quarter) in quarters {
        for month in (0..=13).chain([20, 99]) {
            for day in [0, 1, 28, 29, 30, 31, 32, 99] {
                let days = match (month, year) {
                    (2, 2028) => 29,
                    (1..=12, _) => DAYS[month as usize - 1],
                    _ => 0,
                };
                let refusal = if day < 1 || day > days {
                    Some(refused(48, 2, 283))
                } else if month > quarter || month + 2 < quarter {
                    Some(refused(49, 2, 283))
                } else {
                    None
                };
                let date = format!("{month:02}{day:02}{year:04}");
                list.add_unless(&ceased(Quarter::new(year, quarter), &date), refusal);
            }
        }
    }
}

/// 29 February, in the quarter where the year allows it and outside it else.
fn leap_days(list: &mut List) {
    let leap_years = [2028, 2032, 2400, 2800, 9996];
    let other_years = [2025, 2026, 2027, 2100, 2200, 2300, 9999];
    for year in leap_years.into_iter().chain(other_years) {
        let draft = ceased(Quarter::new(year, 3), &format!("0229{year:04}"));
        list.add_if(&draft, leap_years.contains(&year), refused(48, 2, 283));
    }
    for (year, number) in [
        (0, 49),
        (4, 49),
        (100, 48),
        (400, 49),
        (1900, 48),
        (2000, 49),
        (2023, 48),
        (2024, 49),
    ] {
        let draft = ceased(Q1, &format!("0229{year:04}"));
        list.add(&draft, refused(number, 2, 283));
    }
}
