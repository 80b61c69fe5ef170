//! The E records: each column within the bounds of its field, then the few rules that are more than that.

use crate::bounds::{is_entity, value, Bounds, Columns};
use crate::calendar::{Date, Quarter};
use crate::layout::{self, Region};

static BOUNDS: Bounds = Bounds::of(&layout::E);

/// Where each required text begins, in bytes from 0.
const REQUIRED: [usize; 5] = [23, 73, 113, 200, 230];

/// The region that two capitals name, for every pair of letters.
static REGIONS: [[Region; 26]; 26] = {
    let mut regions = [[Region::Unknown; 26]; 26];
    let mut k = 0;
    while k < layout::STATES.len() {
        let code = layout::STATES[k];
        regions[(code[0] - b'A') as usize][(code[1] - b'A') as usize] = Region::State;
        k += 1;
    }
    let mut k = 0;
    while k < layout::PROVINCES.len() {
        let code = layout::PROVINCES[k];
        regions[(code[0] - b'A') as usize][(code[1] - b'A') as usize] = Region::Province;
        k += 1;
    }
    regions
};

fn region(line: &Columns) -> Region {
    let place = |c: u8| usize::from((c & 0xDF).wrapping_sub(b'A'));
    let row = REGIONS.get(place(line[138]));
    let found = row.and_then(|row| row.get(place(line[139])));
    *found.unwrap_or(&Region::Unknown)
}

fn digits(text: &[u8]) -> bool {
    text.iter().all(u8::is_ascii_digit)
}

fn blank(text: &[u8]) -> bool {
    text.iter().all(|c| *c == b' ')
}

/// ZIP code and extension.
fn address(line: &Columns) -> bool {
    let (extension, zip) = (&line[148..153], &line[153..158]);
    let letter = |c: &u8| c.is_ascii_alphabetic();
    match region(line) {
        Region::State => {
            digits(zip) && (blank(extension) || extension[0] == b'-' && digits(&extension[1..]))
        }
        Region::Province => {
            let zip = letter(&zip[0])
                && digits(&zip[1..2])
                && letter(&zip[2])
                && zip[3] == b' '
                && digits(&zip[4..]);
            zip && letter(&extension[0]) && digits(&extension[1..2]) && blank(&extension[2..])
        }
        Region::Unknown => false,
    }
}

fn cease_date(line: &Columns, quarter: Quarter) -> bool {
    let date = value(&line[282..290]);
    if line[281] == b'0' {
        return date == 0;
    }
    let date = Date::from_number(date);
    date.is_in_calendar() && quarter.holds(date)
}

pub fn fein(line: &Columns) -> u32 {
    value(&line[5..14]) as u32
}

/// Whether an E breaks no edit, but for those that look at earlier E records. `quarter` is A's, as number and as digits.
pub fn is_fine(
    line: &Columns,
    quarter: Quarter,
    (year, period): (&[u8], &[u8]),
    current: bool,
) -> bool {
    let account = blank(&line[172..182]) || digits(&line[172..182]);
    let optional = line[270] != b' ' || blank(&line[271..274]);
    BOUNDS.hold(line)
        && line[1..5] == *year
        && line[187..189] == *period
        && line[5..7] != *b"69"
        && fein(line) != 0
        && REQUIRED.iter().all(|place| line[*place] != b' ')
        && is_entity(&line[166..170])
        && account
        && optional
        && address(line)
        && (quarter.month != 9 || matches!(line[190], b'0' | b'1'))
        && (!current || line[281] == b'1')
        && cease_date(line, quarter)
}
