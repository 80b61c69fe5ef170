//! The edits of one line, in the order the paper states: "Within a line: length, end, characters,
//! letter, place, then fields by first column, each field's rules as above: the first broken column
//! of the first broken field."
//!
//! Nothing here knows how what came before is known: that is the trait `Before`. The meaning of a
//! file answers it by looking back at the lines, the walk by its state and tables.

use crate::calendar::{ends_quarter, Date, Period, Quarter};
use crate::layout::{self, fields_of, region_of, Field, Kind, Region, LENGTH};
use crate::lines::Cut;

/// "At most 100,000 S records a file."
pub const MOST_S: u64 = 100_000;

/// A broken edit of a line: its number and its column.
#[derive(Clone, Copy, Debug, PartialEq, Eq)]
pub struct Broken {
    pub number: u8,
    pub column: u64,
}

/// "A refusal is a place together with the reason, which is one of the numbered ones".
#[derive(Clone, Copy, Debug, PartialEq, Eq)]
pub struct Refusal {
    pub number: u8,
    pub line: u64,
    pub column: u64,
}

impl Refusal {
    pub const fn new(number: u8, line: u64, column: u64) -> Refusal {
        Refusal {
            number,
            line,
            column,
        }
    }
}

/// What an edit finds.
pub type Finding = Result<(), Broken>;

fn broken(number: u8, column: usize) -> Broken {
    Broken {
        number,
        column: column as u64,
    }
}

fn refuse_if(condition: bool, number: u8, column: usize) -> Finding {
    if condition {
        Err(broken(number, column))
    } else {
        Ok(())
    }
}

/// Where a walk through the records stands.
#[derive(Clone, Copy, Debug, PartialEq, Eq)]
pub enum Phase {
    BeforeA,
    AfterA,
    EOpen,
    AfterT,
    AfterF,
}

/// What came before a line, as far as an edit asks.
pub trait Before {
    /// The last closed quarter that the caller gave.
    fn held(&self) -> Quarter;
    fn phase(&self) -> Phase;
    /// Asked only after A.
    fn quarter_of_a(&self) -> Quarter;
    /// The next five are asked only while an E is open.
    fn open_fein(&self) -> u64;
    fn open_says_s_follow(&self) -> bool;
    fn s_since_e(&self) -> u64;
    fn cents_since_e(&self) -> u128;
    /// Whether this identity number, which is not zero, stands under the open E already.
    fn id_since_e(&self, id: u64) -> bool;
    fn id_table_full(&self) -> bool;
    fn fein_on_earlier_e(&self, fein: u64) -> bool;
    fn employer_list_full(&self) -> bool;
    fn s_in_file(&self) -> u64;
    fn e_in_file(&self) -> u64;
    fn cents_in_file(&self) -> u128;
}

/// A line of 290 characters, read in capitals: "a to z read as A to Z everywhere, the record letter
/// included".
#[derive(Clone, Copy, Debug)]
pub struct Record<'a> {
    text: &'a [u8],
}

impl<'a> Record<'a> {
    pub fn new(text: &'a [u8]) -> Record<'a> {
        assert_eq!(text.len(), LENGTH);
        Record { text }
    }

    /// The character of a column, counted from 1.
    pub fn at(&self, column: usize) -> u8 {
        self.text[column - 1].to_ascii_uppercase()
    }

    pub fn letter(&self) -> u8 {
        self.at(1)
    }

    /// The characters of a field.
    fn field(&self, field: &Field) -> Vec<u8> {
        (field.first..=field.last).map(|c| self.at(c)).collect()
    }

    /// The first column of a field whose character fails a test.
    fn first_not(&self, field: &Field, passes: impl Fn(u8) -> bool) -> Option<usize> {
        (field.first..=field.last).find(|column| !passes(self.at(*column)))
    }

    /// "a field that reads as a number gives it, else its refusal": "all digits (30 at the first
    /// that is not)".
    fn number(&self, field: &Field) -> Result<u64, Broken> {
        match self.first_not(field, |c| c.is_ascii_digit()) {
            Some(column) => Err(broken(30, column)),
            None => Ok(self.value(field.first, field.last)),
        }
    }

    /// The value of columns that hold digits.
    pub fn value(&self, first: usize, last: usize) -> u64 {
        (first..=last).fold(0, |sum, column| {
            sum * 10 + u64::from(self.at(column) - b'0')
        })
    }
}

/// The first broken edit of a line.
pub fn edit_line(cut: &Cut, before: &dyn Before) -> Finding {
    edit_length(cut)?;
    edit_end(cut)?;
    let record = Record::new(cut.text);
    edit_characters(&record)?;
    edit_letter(&record)?;
    edit_place(&record, before)?;
    edit_most_s(&record, before)?;
    for field in fields_of(record.letter()) {
        edit_field(&record, field, before)?;
    }
    Ok(())
}

/// "1: length not 290; column is the lesser of length + 1 and 291"
fn edit_length(cut: &Cut) -> Finding {
    let length = cut.text.len();
    refuse_if(length != LENGTH, 1, (length + 1).min(LENGTH + 1))
}

/// "2: 290 characters, no end; column 291"
fn edit_end(cut: &Cut) -> Finding {
    refuse_if(cut.end == 0, 2, LENGTH + 1)
}

fn edit_characters(record: &Record) -> Finding {
    let whole = Field {
        first: 1,
        last: LENGTH,
        kind: Kind::Letter,
    };
    edit_characters_in(record, &whole)
}

/// "Characters are hex 20 to 7E"; "3: first bad character, its column".
pub fn edit_characters_in(record: &Record, field: &Field) -> Finding {
    match record.first_not(field, |c| (0x20..=0x7E).contains(&c)) {
        Some(column) => Err(broken(3, column)),
        None => Ok(()),
    }
}

/// "4: letter not A, E, S, T, F"; "letter and place give 1".
fn edit_letter(record: &Record) -> Finding {
    refuse_if(!layout::LETTERS.contains(&record.letter()), 4, 1)
}

/// "Place: ..." "letter and place give 1".
fn edit_place(record: &Record, before: &dyn Before) -> Finding {
    use Phase::*;
    let number = match (before.phase(), record.letter()) {
        (BeforeA, b'A') => return Ok(()),
        // "before A, another letter 10."
        (BeforeA, _) => 10,
        // "A again, also after F, 11."
        (_, b'A') => 11,
        // "S with no E open, before F, 12."
        (AfterA | AfterT, b'S') => 12,
        // "T after A only 13."
        (AfterA, b'T') => 13,
        // "F after A only 14."
        (AfterA, b'F') => 14,
        // "E while E open 15."
        (EOpen, b'E') => 15,
        // "S under an E saying 0 16."
        (EOpen, b'S') if !before.open_says_s_follow() => 16,
        // "F while E open 17."
        (EOpen, b'F') => 17,
        // "T right after T 18."
        (AfterT, b'T') => 18,
        // "F after F 19."
        (AfterF, b'F') => 19,
        // "E, S or T after F 20."
        (AfterF, _) => 20,
        _ => return Ok(()),
    };
    Err(broken(number, 1))
}

/// "Then an S beyond 100,000 gives 61, column 1."
fn edit_most_s(record: &Record, before: &dyn Before) -> Finding {
    refuse_if(
        record.letter() == b'S' && before.s_in_file() >= MOST_S,
        61,
        1,
    )
}

/// All rules of one field, in order.
pub fn edit_field(record: &Record, field: &Field, before: &dyn Before) -> Finding {
    match field.kind {
        Kind::Letter => Ok(()),
        Kind::Blank => blank_space(record, field),
        Kind::RequiredText => required_text(record, field),
        Kind::OptionalText => optional_text(record, field),
        Kind::Entity => entity_code(record, field),
        Kind::State => state(record, field),
        Kind::Zip => zip(record, field),
        Kind::Extension => extension(record, field),
        Kind::Number => record.number(field).map(|_| ()),
        Kind::Account => account(record, field),
        Kind::YearOfA => year_of_a(record, field, before),
        Kind::Year => year(record, field, before),
        Kind::PeriodOfA => period_of_a(record, field, before),
        Kind::Period => period(record, field, before),
        Kind::FeinOfA => fein_of_a_or_e(record, field).map(|_| ()),
        Kind::FeinOfE => fein_of_e(record, field, before),
        Kind::FeinUnderE => fein_under_e(record, field, before),
        Kind::Flag => flag(record, field),
        Kind::FinalFlag => final_flag(record, field, before),
        Kind::FlagInPeriod09 => flag_in_period_09(record, field),
        Kind::CeaseDate => cease_date(record, field, before),
        Kind::Identity => identity(record, field, before),
        Kind::Name => name(record, field),
        Kind::SCountOfT => s_count_of_t(record, field, before),
        Kind::WagesOfT => equals(record, field, before.cents_since_e(), 57),
        // "F: S count 58, E count 59, wages 60."
        Kind::SCountOfF => equals(record, field, before.s_in_file().into(), 58),
        Kind::ECountOfF => equals(record, field, before.e_in_file().into(), 59),
        Kind::WagesOfF => equals(record, field, before.cents_in_file(), 60),
    }
}

fn is_blank(record: &Record, field: &Field) -> bool {
    record.first_not(field, |c| c == b' ').is_none()
}

/// "Blank space: all blanks (31 at the first that is not)."
fn blank_space(record: &Record, field: &Field) -> Finding {
    match record.first_not(field, |c| c == b' ') {
        Some(column) => Err(broken(31, column)),
        None => Ok(()),
    }
}

/// "Required text: all blank 32; first column blank otherwise 33."
fn required_text(record: &Record, field: &Field) -> Finding {
    refuse_if(is_blank(record, field), 32, field.first)?;
    refuse_if(record.at(field.first) == b' ', 33, field.first)
}

/// "Optional text: all blank passes; first column blank otherwise 33."
fn optional_text(record: &Record, field: &Field) -> Finding {
    if is_blank(record, field) {
        return Ok(());
    }
    refuse_if(record.at(field.first) == b' ', 33, field.first)
}

/// "The entity code is PFML (34)."
fn entity_code(record: &Record, field: &Field) -> Finding {
    refuse_if(record.field(field) != b"PFML", 34, field.first)
}

fn region(record: &Record) -> Region {
    let (first, last) = layout::STATE;
    region_of([record.at(first), record.at(last)])
}

/// "A and E state: one of the 64 codes of Appendix A, 50 states, DC and 13 provinces (35). Class
/// tests 32 and 33 don't apply to it or to ZIP fields."
fn state(record: &Record, field: &Field) -> Finding {
    refuse_if(region(record) == Region::Unknown, 35, field.first)
}

/// Whether a field is written as a pattern says: `9` any digit, `A` any letter, else itself.
fn is_like(text: &[u8], pattern: &[u8]) -> bool {
    let one_is_like = |(c, p): (&u8, &u8)| match p {
        b'9' => c.is_ascii_digit(),
        b'A' => c.is_ascii_uppercase(),
        _ => c == p,
    };
    text.len() == pattern.len() && text.iter().zip(pattern).all(one_is_like)
}

/// "ZIP: with a state, five digits; with a province, letter digit letter blank digit (36)."
fn zip(record: &Record, field: &Field) -> Finding {
    let text = record.field(field);
    let passes = match region(record) {
        Region::State => is_like(&text, b"99999"),
        Region::Province => is_like(&text, b"A9A 9"),
        Region::Unknown => unreachable!("35 comes first"),
    };
    refuse_if(!passes, 36, field.first)
}

/// "Extension: with a state, five blanks or hyphen and four digits; with a province, letter, digit,
/// three blanks (37)."
fn extension(record: &Record, field: &Field) -> Finding {
    let text = record.field(field);
    let passes = match region(record) {
        Region::State => is_like(&text, b"     ") || is_like(&text, b"-9999"),
        Region::Province => is_like(&text, b"A9   "),
        Region::Unknown => unreachable!("35 comes first"),
    };
    refuse_if(!passes, 37, field.first)
}

/// "E 173-182 may be ten blanks"
fn account(record: &Record, field: &Field) -> Finding {
    if is_blank(record, field) {
        return Ok(());
    }
    record.number(field).map(|_| ())
}

/// "Year: below 2025 38."
fn year_from_2025(record: &Record, field: &Field) -> Result<u64, Broken> {
    let year = record.number(field)?;
    refuse_if(year < 2025, 38, field.first)?;
    Ok(year)
}

/// Document 02 (v): "39 is for years beyond the current quarter's"; where no quarter is current, for
/// those beyond the last closed.
fn year_of_a(record: &Record, field: &Field, before: &dyn Before) -> Finding {
    let year = year_from_2025(record, field)?;
    let held = before.held();
    let most = held.current_after().unwrap_or(held).year;
    refuse_if(year > most, 39, field.first)
}

/// "E and S: not A's 42."
fn year(record: &Record, field: &Field, before: &dyn Before) -> Finding {
    let year = year_from_2025(record, field)?;
    refuse_if(year != before.quarter_of_a().year, 42, field.first)
}

/// "Period: not 03, 06, 09, 12 40." "A 19-20, E 188-189 and S 46-47 give only 40 in place of 30".
fn period_that_is_one(record: &Record, field: &Field) -> Result<u64, Broken> {
    let Ok(month) = record.number(field) else {
        return Err(broken(40, field.first));
    };
    refuse_if(!ends_quarter(month), 40, field.first)?;
    Ok(month)
}

/// Document 02 (v): "41 is for quarters after the current".
fn period_of_a(record: &Record, field: &Field, before: &dyn Before) -> Finding {
    let month = period_that_is_one(record, field)?;
    let (first, last) = layout::YEAR_IN_A;
    let quarter = Quarter::new(record.value(first, last), month);
    match quarter.under(before.held()) {
        Period::Closed | Period::Current => Ok(()),
        Period::Later => Err(broken(41, field.first)),
    }
}

/// "E and S: not A's 43."
fn period(record: &Record, field: &Field, before: &dyn Before) -> Finding {
    let month = period_that_is_one(record, field)?;
    refuse_if(month != before.quarter_of_a().month, 43, field.first)
}

/// "FEIN in A and E: begins with 69 44 (glossary)." Document 02 (iii), a FEIN of nine zeros: "64,
/// right after 44 and before 45, at the field's first column".
fn fein_of_a_or_e(record: &Record, field: &Field) -> Result<u64, Broken> {
    let fein = record.number(field)?;
    refuse_if(record.field(field).starts_with(b"69"), 44, field.first)?;
    refuse_if(record.field(field) == b"000000000", 64, field.first)?;
    Ok(fein)
}

/// "E: on an earlier E 45, then list full 63."
fn fein_of_e(record: &Record, field: &Field, before: &dyn Before) -> Finding {
    let fein = fein_of_a_or_e(record, field)?;
    refuse_if(before.fein_on_earlier_e(fein), 45, field.first)?;
    refuse_if(before.employer_list_full(), 63, field.first)
}

/// "S and T: not the open E's 46."
fn fein_under_e(record: &Record, field: &Field, before: &dyn Before) -> Finding {
    let fein = record.number(field)?;
    refuse_if(fein != before.open_fein(), 46, field.first)
}

/// "E flags: 0 or 1 (47)."
fn flag(record: &Record, field: &Field) -> Finding {
    let mark = record.at(field.first);
    refuse_if(mark != b'0' && mark != b'1', 47, field.first)
}

/// Document 02 (v): "65, E column 282 is 0 in a current-quarter file, after 47 there".
fn final_flag(record: &Record, field: &Field, before: &dyn Before) -> Finding {
    flag(record, field)?;
    match before.quarter_of_a().under(before.held()) {
        Period::Closed | Period::Later => Ok(()),
        Period::Current => refuse_if(record.at(field.first) == b'0', 65, field.first),
    }
}

/// "191 is tested only in period 09 (Appendix D); otherwise any character passes."
fn flag_in_period_09(record: &Record, field: &Field) -> Finding {
    let (first, last) = layout::PERIOD_IN_E;
    if record.value(first, last) != 9 {
        return Ok(());
    }
    flag(record, field)
}

/// "E cease date, MMDDYYYY, years 0000 to 9999 by the Gregorian leap rule: with 282 at 0, not all
/// zeros 50. With 1: zeros 51, no calendar date 48, outside A's quarter 49."
fn cease_date(record: &Record, field: &Field, before: &dyn Before) -> Finding {
    let value = record.number(field)?;
    if record.at(layout::FINAL_IN_E) == b'0' {
        return refuse_if(value != 0, 50, field.first);
    }
    let date = Date::from_number(value);
    refuse_if(value == 0, 51, field.first)?;
    refuse_if(!date.is_in_calendar(), 48, field.first)?;
    refuse_if(!before.quarter_of_a().holds(date), 49, field.first)
}

/// "S identity number: begins with 666 or 9 52. 000000000 means applied for and may repeat. Another
/// number: already under this E 53, then id table full 62; only such numbers take room." Document 02
/// (i) lets those ITINs through that the IRS issues.
fn identity(record: &Record, field: &Field, before: &dyn Before) -> Finding {
    let id = record.number(field)?;
    let text = record.field(field);
    let forbidden = text.starts_with(b"666") || text.starts_with(b"9") && !is_issued(&text);
    refuse_if(forbidden, 52, field.first)?;
    if id == 0 {
        return Ok(());
    }
    refuse_if(before.id_since_e(id), 53, field.first)?;
    refuse_if(before.id_table_full(), 62, field.first)
}

/// "its fourth and fifth digits are 50 to 65, 70 to 88, 90 to 92 or 94 to 99, as the IRS issues them"
fn is_issued(itin: &[u8]) -> bool {
    match (itin[3], itin[4]) {
        (b'5' | b'7', _) => true,
        (b'6', fifth) => fifth <= b'5',
        (b'8', fifth) => fifth <= b'8',
        (b'9', fifth) => fifth != b'3',
        _ => false,
    }
}

/// "S names: required text, then only letters, blank, hyphen, apostrophe (54 at the first other)."
fn name(record: &Record, field: &Field) -> Finding {
    required_text(record, field)?;
    let in_a_name = |c: u8| c.is_ascii_uppercase() || c == b' ' || c == 0x2D || c == 0x27;
    match record.first_not(field, in_a_name) {
        Some(column) => Err(broken(54, column)),
        None => Ok(()),
    }
}

/// "T: count is not that of S records since E 55; none though E says 1 56, column 2 too".
fn s_count_of_t(record: &Record, field: &Field, before: &dyn Before) -> Finding {
    let count = record.number(field)?;
    refuse_if(count != before.s_since_e(), 55, field.first)?;
    refuse_if(count == 0 && before.open_says_s_follow(), 56, field.first)
}

/// A number that has to be the one counted or added up ("wages are not their sum 57").
fn equals(record: &Record, field: &Field, wanted: u128, number: u8) -> Finding {
    let value = record.number(field)?;
    refuse_if(u128::from(value) != wanted, number, field.first)
}

/// "5, 6, 7, 8: input ends before A; after A; with E open; after T without F. Line is lines read +
/// 1, column 1"
pub fn edit_input_end(phase: Phase, lines_read: u64) -> Result<(), Refusal> {
    let number = match phase {
        Phase::BeforeA => 5,
        Phase::AfterA => 6,
        Phase::EOpen => 7,
        Phase::AfterT => 8,
        Phase::AfterF => return Ok(()),
    };
    Err(Refusal::new(number, lines_read + 1, 1))
}
