//! Quarters and dates.

/// A quarter by its year and last month; ordered by time.
#[derive(Clone, Copy, Debug, Default, PartialEq, Eq, PartialOrd, Ord)]
pub struct Quarter {
    pub year: u64,
    pub month: u64,
}

impl Quarter {
    pub const fn new(year: u64, month: u64) -> Quarter {
        Quarter { year, month }
    }

    /// "the last closed quarter (year 2025 to 9999, month 3, 6, 9 or 12)"
    pub fn may_be_held(self) -> bool {
        (2025..=9999).contains(&self.year) && ends_quarter(self.month)
    }

    /// "The current quarter is the one right after the last closed; after 12 of 9999 there is none."
    pub fn current_after(self) -> Option<Quarter> {
        match (self.year, self.month) {
            (9999, 12) => None,
            (year, 12) => Some(Quarter::new(year + 1, 3)),
            (year, month) => Some(Quarter::new(year, month + 3)),
        }
    }

    /// The period test, with `held` the last closed quarter.
    pub fn under(self, held: Quarter) -> Period {
        if Some(self) == held.current_after() {
            return Period::Current;
        }
        match self <= held {
            true => Period::Closed,
            false => Period::Later,
        }
    }

    pub fn is_current(self, held: Quarter) -> bool {
        self.under(held) == Period::Current
    }

    /// "outside A's quarter": the three months up to and with `month`.
    pub fn holds(self, date: Date) -> bool {
        date.year == self.year && date.month <= self.month && date.month + 3 > self.month
    }
}

/// What the period test says of a quarter (document 02, v): "closed, current or later".
#[derive(Clone, Copy, Debug, PartialEq, Eq)]
pub enum Period {
    Closed,
    Current,
    Later,
}

/// "03, 06, 09, 12"
pub fn ends_quarter(month: u64) -> bool {
    matches!(month, 3 | 6 | 9 | 12)
}

#[derive(Clone, Copy, Debug, PartialEq, Eq)]
pub struct Date {
    pub month: u64,
    pub day: u64,
    pub year: u64,
}

impl Date {
    /// "MMDDYYYY"
    pub fn from_number(value: u64) -> Date {
        Date {
            month: value / 1_000_000,
            day: value / 10_000 % 100,
            year: value % 10_000,
        }
    }

    /// "years 0000 to 9999 by the Gregorian leap rule"
    pub fn is_in_calendar(self) -> bool {
        self.day >= 1 && self.day <= days_in(self.month, self.year)
    }
}

/// Days of a month; none in a month that is none.
pub fn days_in(month: u64, year: u64) -> u64 {
    match month {
        2 if is_leap(year) => 29,
        2 => 28,
        4 | 6 | 9 | 11 => 30,
        1 | 3 | 5 | 7 | 8 | 10 | 12 => 31,
        _ => 0,
    }
}

fn is_leap(year: u64) -> bool {
    match (year % 4, year % 100, year % 400) {
        (_, _, 0) => true,
        (_, 0, _) => false,
        (remainder, _, _) => remainder == 0,
    }
}
