//! The columns: "Columns and fields are the five tables of document 000: A 17 fields, E 28, S 12,
//! T 7, F 7. S 46-51 is read as two, 46-47 and 48-51, so 72 in all."

/// "Each line has 290 characters and an end".
pub const LENGTH: usize = 290;

/// What is asked of a field: its class, and the further rules that go with it.
#[derive(Clone, Copy, Debug, PartialEq, Eq)]
pub enum Kind {
    /// Column 1. Its edits (4, place) come before all fields.
    Letter,
    Blank,
    RequiredText,
    OptionalText,
    Entity,
    State,
    Zip,
    Extension,
    /// A number with no further rule: telephones, the wages of an S.
    Number,
    /// E 173-182.
    Account,
    YearOfA,
    Year,
    PeriodOfA,
    Period,
    FeinOfA,
    FeinOfE,
    /// The FEIN of S and T.
    FeinUnderE,
    /// E 187, 190.
    Flag,
    /// E 282.
    FinalFlag,
    /// E 191.
    FlagInPeriod09,
    CeaseDate,
    Identity,
    Name,
    SCountOfT,
    WagesOfT,
    SCountOfF,
    ECountOfF,
    WagesOfF,
}

/// A field: first and last column (counted from 1) and what is asked of it.
#[derive(Clone, Copy, Debug, PartialEq, Eq)]
pub struct Field {
    pub first: usize,
    pub last: usize,
    pub kind: Kind,
}

const fn field(first: usize, last: usize, kind: Kind) -> Field {
    Field { first, last, kind }
}

/// Transmitter (A) Record.
pub const A: [Field; 17] = [
    field(1, 1, Kind::Letter),
    field(2, 5, Kind::YearOfA),
    field(6, 14, Kind::FeinOfA),
    field(15, 18, Kind::Entity),
    field(19, 20, Kind::PeriodOfA),
    field(21, 23, Kind::Blank),
    field(24, 73, Kind::RequiredText),
    field(74, 113, Kind::RequiredText),
    field(114, 138, Kind::RequiredText),
    field(139, 140, Kind::State),
    field(141, 153, Kind::Blank),
    field(154, 158, Kind::Zip),
    field(159, 163, Kind::Extension),
    field(164, 193, Kind::RequiredText),
    field(194, 203, Kind::Number),
    field(204, 207, Kind::OptionalText),
    field(208, 290, Kind::Blank),
];

/// Employer (E) Record.
pub const E: [Field; 28] = [
    field(1, 1, Kind::Letter),
    field(2, 5, Kind::Year),
    field(6, 14, Kind::FeinOfE),
    field(15, 23, Kind::Blank),
    field(24, 73, Kind::RequiredText),
    field(74, 113, Kind::RequiredText),
    field(114, 138, Kind::RequiredText),
    field(139, 140, Kind::State),
    field(141, 148, Kind::Blank),
    field(149, 153, Kind::Extension),
    field(154, 158, Kind::Zip),
    field(159, 166, Kind::Blank),
    field(167, 170, Kind::Entity),
    field(171, 172, Kind::Blank),
    field(173, 182, Kind::Account),
    field(183, 186, Kind::Blank),
    field(187, 187, Kind::Flag),
    field(188, 189, Kind::Period),
    field(190, 190, Kind::Flag),
    field(191, 191, Kind::FlagInPeriod09),
    field(192, 200, Kind::Blank),
    field(201, 230, Kind::RequiredText),
    field(231, 260, Kind::RequiredText),
    field(261, 270, Kind::Number),
    field(271, 274, Kind::OptionalText),
    field(275, 281, Kind::Blank),
    field(282, 282, Kind::FinalFlag),
    field(283, 290, Kind::CeaseDate),
];

/// Employee (S) Record, with 46-51 read as two.
pub const S: [Field; 13] = [
    field(1, 1, Kind::Letter),
    field(2, 10, Kind::Identity),
    field(11, 30, Kind::Name),
    field(31, 42, Kind::Name),
    field(43, 45, Kind::Blank),
    field(46, 47, Kind::Period),
    field(48, 51, Kind::Year),
    field(52, 63, Kind::Blank),
    field(64, 77, Kind::Number),
    field(78, 142, Kind::Blank),
    field(143, 146, Kind::Entity),
    field(147, 155, Kind::FeinUnderE),
    field(156, 290, Kind::Blank),
];

/// Total (T) Record.
pub const T: [Field; 7] = [
    field(1, 1, Kind::Letter),
    field(2, 8, Kind::SCountOfT),
    field(9, 12, Kind::Entity),
    field(13, 21, Kind::FeinUnderE),
    field(22, 26, Kind::Blank),
    field(27, 40, Kind::WagesOfT),
    field(41, 290, Kind::Blank),
];

/// Final (F) Record.
pub const F: [Field; 7] = [
    field(1, 1, Kind::Letter),
    field(2, 11, Kind::SCountOfF),
    field(12, 21, Kind::ECountOfF),
    field(22, 25, Kind::Entity),
    field(26, 40, Kind::Blank),
    field(41, 55, Kind::WagesOfF),
    field(56, 290, Kind::Blank),
];

/// The five letters, in the paper's order.
pub const LETTERS: [u8; 5] = *b"AESTF";

/// The fields of a record, by first column; none for another letter.
pub fn fields_of(letter: u8) -> &'static [Field] {
    match letter {
        b'A' => &A,
        b'E' => &E,
        b'S' => &S,
        b'T' => &T,
        b'F' => &F,
        _ => &[],
    }
}

/// The state of an address stands in the same columns in A and E.
pub const STATE: (usize, usize) = (139, 140);
/// The columns that other rules look at.
pub const YEAR_IN_A: (usize, usize) = (2, 5);
pub const PERIOD_IN_A: (usize, usize) = (19, 20);
pub const FEIN_IN_E: (usize, usize) = (6, 14);
pub const AMENDED_IN_E: usize = 187;
pub const PERIOD_IN_E: (usize, usize) = (188, 189);
pub const S_FOLLOW_IN_E: usize = 190;
pub const FINAL_IN_E: usize = 282;
pub const CEASE_DATE_IN_E: (usize, usize) = (283, 290);
pub const IDENTITY_IN_S: (usize, usize) = (2, 10);
pub const WAGES_IN_S: (usize, usize) = (64, 77);

/// Appendix A: "50 states, DC".
pub const STATES: [&[u8; 2]; 51] = [
    b"AL", b"AK", b"AZ", b"AR", b"CA", b"CO", b"CT", b"DE", b"DC", b"FL", b"GA", b"HI", b"ID",
    b"IL", b"IN", b"IA", b"KS", b"KY", b"LA", b"ME", b"MD", b"MA", b"MI", b"MN", b"MS", b"MO",
    b"MT", b"NE", b"NV", b"NH", b"NJ", b"NM", b"NY", b"NC", b"ND", b"OH", b"OK", b"OR", b"PA",
    b"RI", b"SC", b"SD", b"TN", b"TX", b"UT", b"VT", b"VA", b"WA", b"WV", b"WI", b"WY",
];

/// Appendix A: "and 13 provinces".
pub const PROVINCES: [&[u8; 2]; 13] = [
    b"AB", b"BC", b"MB", b"NB", b"NL", b"NS", b"NT", b"NU", b"ON", b"PE", b"QC", b"SK", b"YT",
];

/// What a code of two capitals names.
#[derive(Clone, Copy, Debug, PartialEq, Eq)]
pub enum Region {
    State,
    Province,
    Unknown,
}

pub fn region_of(code: [u8; 2]) -> Region {
    if STATES.contains(&&code) {
        Region::State
    } else if PROVINCES.contains(&&code) {
        Region::Province
    } else {
        Region::Unknown
    }
}

#[cfg(test)]
mod tests {
    use super::*;
    use std::collections::HashSet;

    #[test]
    fn fields_fill_every_record() {
        for letter in LETTERS {
            let mut next = 1;
            for field in fields_of(letter) {
                assert_eq!(field.first, next);
                assert!(field.last >= field.first);
                next = field.last + 1;
            }
            assert_eq!(next, LENGTH + 1);
        }
    }

    #[test]
    fn seventy_two_fields() {
        let count: usize = LETTERS.iter().map(|l| fields_of(*l).len()).sum();
        assert_eq!(count, 72);
    }

    #[test]
    fn sixty_four_codes() {
        let all: HashSet<_> = STATES.iter().chain(PROVINCES.iter()).collect();
        assert_eq!(all.len(), 64);
    }
}
