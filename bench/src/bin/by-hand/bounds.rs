//! What each column of a record may hold, as the least and the greatest character: one sweep without exit tells whether
//! all columns do.

use crate::layout::{Field, Kind, LENGTH};

pub type Columns = [u8; LENGTH];

/// The least character of each column, and how many more may stand there.
pub struct Bounds {
    least: Columns,
    more: Columns,
}

impl Bounds {
    pub const fn of(fields: &[Field]) -> Bounds {
        let mut bounds = Bounds {
            least: [b' '; LENGTH],
            more: [b'~' - b' '; LENGTH],
        };
        let mut place = 0;
        while place < fields.len() {
            bounds.set(fields[place]);
            place += 1;
        }
        bounds
    }

    const fn set(&mut self, field: Field) {
        let (least, greatest) = ends(field.kind);
        let mut place = field.first - 1;
        while place < field.last {
            self.least[place] = least;
            self.more[place] = greatest - least;
            place += 1;
        }
    }

    #[inline(always)]
    pub fn hold(&self, line: &Columns) -> bool {
        let mut beyond = 0;
        for place in 0..LENGTH {
            beyond |= u8::from(line[place].wrapping_sub(self.least[place]) > self.more[place]);
        }
        beyond == 0
    }
}

/// The least and the greatest character of a field. Some fields have further rules.
const fn ends(kind: Kind) -> (u8, u8) {
    match kind {
        Kind::Blank => (b' ', b' '),
        Kind::Number | Kind::Year | Kind::Period | Kind::FeinOfE | Kind::CeaseDate => (b'0', b'9'),
        Kind::FeinUnderE | Kind::SCountOfT | Kind::WagesOfT => (b'0', b'9'),
        Kind::Flag | Kind::FinalFlag => (b'0', b'1'),
        _ => (b' ', b'~'),
    }
}

/// The value of some digits.
#[inline(always)]
pub fn value(digits: &[u8]) -> u64 {
    digits
        .iter()
        .fold(0, |sum, digit| sum * 10 + u64::from(digit - b'0'))
}

#[inline(always)]
pub fn is_entity(text: &[u8]) -> bool {
    text.eq_ignore_ascii_case(b"PFML")
}
