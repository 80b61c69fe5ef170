//! The building of A, E and S records, and the reading of their fields (document 02, ii): "Build A,
//! E and S records from unpadded field values into a lent 290-byte slice".
//!
//! A record's values are one number for each field of its table, in the table's order: of a number
//! field the number, of a text how many of the texts' bytes it is, the texts standing one after the
//! other (docs/DECISIONS.md, "Values are given by field number"). A value that is not there is 0, and
//! a text ends where the texts end.

use crate::calendar::Quarter;
use crate::edits::{
    edit_characters_in, edit_field, Before, Broken, Finding, Phase, Record, Refusal,
};
use crate::layout::{fields_of, Field, Kind, LENGTH};
use crate::walk::Answer;

/// The account number that is empty.
pub const NO_ACCOUNT: u64 = u64::MAX;

/// The widest field that reads as a number: 64 bits hold 19 digits, whatever they are.
const WIDEST_NUMBER: usize = 19;

/// The records that are built.
#[derive(Clone, Copy, Debug, PartialEq, Eq)]
pub enum Built {
    A,
    E,
    S,
}

impl Built {
    pub const ALL: [Built; 3] = [Built::A, Built::E, Built::S];

    pub fn letter(self) -> u8 {
        match self {
            Built::A => b'A',
            Built::E => b'E',
            Built::S => b'S',
        }
    }

    pub fn fields(self) -> &'static [Field] {
        fields_of(self.letter())
    }

    /// "Refusals, slice untouched: 84, slice not 290 bytes, first; then by field, 85, value too
    /// long, with the field's first column; 3, a bad character; 01's field numbers."
    pub fn build(self, values: &[u64], texts: &[u8], slice: &mut [u8]) -> Answer {
        if slice.len() != LENGTH {
            return Some(Refusal::new(84, 0, 0));
        }
        let given = self.given(values, texts);
        let padded: Vec<u8> = given.iter().flat_map(Given::padded).collect();
        let record = Record::new(&padded);
        match given.iter().try_for_each(|one| one.edit(&record)) {
            Err(broken) => Some(Refusal::new(broken.number, 0, broken.column)),
            Ok(()) => {
                slice.copy_from_slice(&padded);
                None
            }
        }
    }

    /// Each field with its value.
    fn given<'a>(self, values: &[u64], texts: &'a [u8]) -> Vec<Given<'a>> {
        let mut rest = texts;
        let mut values = values.iter().copied();
        let mut value_of = |field: &Field| {
            let entry = values.next().unwrap_or(0);
            match form_of(field.kind) {
                Form::Constant => Value::Text(self.constant(field.kind)),
                Form::Text => {
                    let length = usize::try_from(entry).unwrap_or(usize::MAX);
                    let (text, behind) = rest.split_at(length.min(rest.len()));
                    rest = behind;
                    Value::Text(text)
                }
                Form::Account if entry == NO_ACCOUNT => Value::Text(b""),
                Form::Account | Form::Number => Value::Number(entry),
            }
        };
        let with_value = |field: &Field| Given {
            field: *field,
            value: value_of(field),
        };
        self.fields().iter().map(with_value).collect()
    }

    /// What no caller gives: the letter, the entity code, and nothing for blank space.
    fn constant(self, kind: Kind) -> &'static [u8] {
        match (kind, self) {
            (Kind::Letter, Built::A) => b"A",
            (Kind::Letter, Built::E) => b"E",
            (Kind::Letter, Built::S) => b"S",
            (Kind::Entity, _) => b"PFML",
            _ => b"",
        }
    }
}

/// How a field is given.
#[derive(Clone, Copy, Debug, PartialEq, Eq)]
pub enum Form {
    Constant,
    Text,
    Number,
    Account,
}

/// "Number (every field of type N, so E 261-270 too)"; ZIP codes and extensions are no numbers in
/// it: a province has letters there.
pub fn form_of(kind: Kind) -> Form {
    match kind {
        Kind::Letter | Kind::Blank | Kind::Entity => Form::Constant,
        Kind::RequiredText | Kind::OptionalText | Kind::Name => Form::Text,
        Kind::State | Kind::Zip | Kind::Extension => Form::Text,
        Kind::Account => Form::Account,
        _ => Form::Number,
    }
}

enum Value<'a> {
    Number(u64),
    Text(&'a [u8]),
}

struct Given<'a> {
    field: Field,
    value: Value<'a>,
}

impl Given<'_> {
    fn width(&self) -> usize {
        self.field.last + 1 - self.field.first
    }

    /// As it is, unpadded: a number without zeros in front.
    fn unpadded(&self) -> Vec<u8> {
        match self.value {
            Value::Number(number) => number.to_string().into_bytes(),
            Value::Text(text) => text.to_ascii_uppercase(),
        }
    }

    /// "text left justified, blank filled; numbers, given and read as numbers, right justified, zero
    /// filled". What is too long is cut: 85 comes before anyone sees it, and keeps its columns.
    fn padded(&self) -> Vec<u8> {
        let (mut text, width) = (self.unpadded(), self.width());
        match self.value {
            Value::Number(_) => text.splice(0..0, vec![b'0'; width.saturating_sub(text.len())]),
            Value::Text(_) => {
                text.splice(text.len().., vec![b' '; width.saturating_sub(text.len())])
            }
        };
        text.truncate(width);
        text
    }

    fn edit(&self, record: &Record) -> Finding {
        if self.unpadded().len() > self.width() {
            let column = self.field.first as u64;
            return Err(Broken { number: 85, column });
        }
        edit_characters_in(record, &self.field)?;
        edit_alone(record, &self.field)
    }
}

/// "Rules that look at other records or the quarter held stay with the walk." In every field they
/// are the last, so a finding of one of them says that the field's own rules found nothing.
const OF_THE_WALK: [u8; 10] = [39, 41, 42, 43, 45, 46, 49, 53, 62, 63];

/// "the field's own rules"
fn edit_alone(record: &Record, field: &Field) -> Finding {
    match edit_field(record, field, &Nothing) {
        Err(broken) if OF_THE_WALK.contains(&broken.number) => Ok(()),
        finding => finding,
    }
}

/// There is no file: what it would say matters to no rule that is kept.
struct Nothing;

impl Before for Nothing {
    fn held(&self) -> Quarter {
        Quarter::default()
    }

    fn phase(&self) -> Phase {
        Phase::BeforeA
    }

    fn quarter_of_a(&self) -> Quarter {
        Quarter::default()
    }

    fn open_fein(&self) -> u64 {
        0
    }

    fn open_says_s_follow(&self) -> bool {
        false
    }

    fn s_since_e(&self) -> u64 {
        0
    }

    fn cents_since_e(&self) -> u128 {
        0
    }

    fn id_since_e(&self, _: u64) -> bool {
        false
    }

    fn id_table_full(&self) -> bool {
        false
    }

    fn fein_on_earlier_e(&self, _: u64) -> bool {
        false
    }

    fn employer_list_full(&self) -> bool {
        false
    }

    fn s_in_file(&self) -> u64 {
        0
    }

    fn e_in_file(&self) -> u64 {
        0
    }

    fn cents_in_file(&self) -> u128 {
        0
    }
}

/// A field of one of the five records, by its letter and its number from 0 on.
pub fn field_at(letter: u8, number: u64) -> Option<&'static Field> {
    let place = usize::try_from(number).ok()?;
    fields_of(letter).get(place)
}

/// The first column of a field, 0 if there is none.
pub fn first_column(letter: u8, number: u64) -> u64 {
    field_at(letter, number).map_or(0, |field| field.first as u64)
}

/// What stands in a field's columns, as far as the line has them.
fn columns_of<'a>(field: &Field, line: &'a [u8]) -> &'a [u8] {
    let end = field.last.min(line.len());
    line.get(field.first - 1..end).unwrap_or(&[])
}

/// A field read as a number, or the column of 30: the first that holds no digit; the field's first
/// if no number can be read from so many columns, and 0 where there is no field.
pub fn read_number(letter: u8, number: u64, line: &[u8]) -> Result<u64, u64> {
    let field = field_at(letter, number).ok_or(0_u64)?;
    let width = field.last + 1 - field.first;
    if width > WIDEST_NUMBER {
        return Err(field.first as u64);
    }
    let text = columns_of(field, line);
    let digits = text.iter().take_while(|c| c.is_ascii_digit()).count();
    if digits < width {
        return Err((field.first + digits) as u64);
    }
    let digits = std::str::from_utf8(text).expect("digits are ASCII");
    Ok(digits.parse().expect("19 digits fit 64 bits"))
}

/// How many characters a field has "without trailing blanks".
pub fn text_length(letter: u8, number: u64, line: &[u8]) -> u64 {
    let Some(field) = field_at(letter, number) else {
        return 0;
    };
    let last = columns_of(field, line).iter().rposition(|c| *c != b' ');
    last.map_or(0, |place| place as u64 + 1)
}
