//! Values of A, E and S records to be built: tidy ones, which other modules then alter.
//!
//! The fields here are typed from document 000 by their names, a second time.

use crate::build::{form_of, Built, Form, NO_ACCOUNT};
use crate::calendar::Quarter;

/// What is given for one field.
#[derive(Clone, Debug, PartialEq, Eq)]
pub enum Value {
    Number(u64),
    Text(Vec<u8>),
    /// The letter, the entity code, blank space: this number is not looked at.
    Constant(u64),
}

/// What is given for a record, field by field.
#[derive(Clone, Debug, PartialEq, Eq)]
pub struct Values {
    pub record: Built,
    pub fields: Vec<Value>,
}

fn text(text: &str) -> Value {
    Value::Text(text.as_bytes().to_vec())
}

const NONE: Value = Value::Constant(0);

impl Values {
    /// One number for each field.
    pub fn entries(&self) -> Vec<u64> {
        let entry = |value: &Value| match value {
            Value::Number(number) | Value::Constant(number) => *number,
            Value::Text(text) => text.len() as u64,
        };
        self.fields.iter().map(entry).collect()
    }

    /// The texts, one after the other.
    pub fn texts(&self) -> Vec<u8> {
        let text = |value: &Value| match value {
            Value::Text(text) => text.clone(),
            _ => Vec::new(),
        };
        self.fields.iter().flat_map(text).collect()
    }

    /// The same with another value for one field.
    pub fn with(&self, place: usize, value: Value) -> Values {
        let mut other = self.clone();
        other.fields[place] = value;
        other
    }

    pub fn with_number(&self, place: usize, number: u64) -> Values {
        self.with(place, Value::Number(number))
    }

    pub fn with_text(&self, place: usize, text: &[u8]) -> Values {
        self.with(place, Value::Text(text.to_vec()))
    }

    /// How the field at a place is given.
    pub fn form(&self, place: usize) -> Form {
        form_of(self.record.fields()[place].kind)
    }
}

/// The places of some fields, counted from 0.
pub const YEAR_OF_A: usize = 1;
pub const FEIN_OF_A: usize = 2;
pub const PERIOD_OF_A: usize = 4;
pub const STATE_OF_A: usize = 9;
pub const ZIP_OF_A: usize = 11;
pub const EXTENSION_OF_A: usize = 12;
pub const YEAR_OF_E: usize = 1;
pub const FEIN_OF_E: usize = 2;
pub const STATE_OF_E: usize = 7;
pub const EXTENSION_OF_E: usize = 9;
pub const ZIP_OF_E: usize = 10;
pub const ACCOUNT_OF_E: usize = 14;
pub const PERIOD_OF_E: usize = 17;
pub const S_FOLLOW_OF_E: usize = 18;
pub const FIFTEEN_OF_E: usize = 19;
pub const FINAL_OF_E: usize = 26;
pub const CEASE_DATE_OF_E: usize = 27;
pub const IDENTITY_OF_S: usize = 1;
pub const LAST_NAME_OF_S: usize = 2;
pub const PERIOD_OF_S: usize = 5;
pub const YEAR_OF_S: usize = 6;

/// A tidy A record.
pub fn values_of_a(quarter: Quarter) -> Values {
    let fields = vec![
        NONE,
        Value::Number(quarter.year),
        Value::Number(123_456_789),
        NONE,
        Value::Number(quarter.month),
        NONE,
        text("Northern Payroll LLC"),
        text("12 Water Street"),
        text("Augusta"),
        text("ME"),
        NONE,
        text("04332"),
        text("-1061"),
        text("Jo Smith"),
        Value::Number(2_075_551_212),
        text(""),
        NONE,
    ];
    Values {
        record: Built::A,
        fields,
    }
}

/// A tidy E record that is no final return.
pub fn values_of_e(quarter: Quarter, fein: u64, s_follow: bool) -> Values {
    let fields = vec![
        NONE,
        Value::Number(quarter.year),
        Value::Number(fein),
        NONE,
        text("Orchard Hill Farm"),
        text("4 Ridge Road"),
        text("Bangor"),
        text("ME"),
        NONE,
        text(""),
        text("04401"),
        NONE,
        NONE,
        NONE,
        Value::Number(NO_ACCOUNT),
        NONE,
        Value::Number(0),
        Value::Number(quarter.month),
        Value::Number(s_follow.into()),
        Value::Number(0),
        NONE,
        text("Ann Roy"),
        text("ann@orchard.example"),
        Value::Number(2_075_550_100),
        text("12"),
        NONE,
        Value::Number(0),
        Value::Number(0),
    ];
    Values {
        record: Built::E,
        fields,
    }
}

/// A tidy S record.
pub fn values_of_s(quarter: Quarter, fein: u64, id: u64, wages: u64) -> Values {
    let fields = vec![
        NONE,
        Value::Number(id),
        text("O'Neil-Roy"),
        text("Anne"),
        NONE,
        Value::Number(quarter.month),
        Value::Number(quarter.year),
        NONE,
        Value::Number(wages),
        NONE,
        NONE,
        Value::Number(fein),
        NONE,
    ];
    Values {
        record: Built::S,
        fields,
    }
}

/// A tidy record of each kind.
pub fn tidy_values(quarter: Quarter) -> [Values; 3] {
    let fein = 12_345_678;
    [
        values_of_a(quarter),
        values_of_e(quarter, fein, true),
        values_of_s(quarter, fein, 111_223_333, 123_456),
    ]
}
