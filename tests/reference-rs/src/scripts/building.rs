//! Records built and fields read: every field at and beyond its width, with characters of every
//! kind, and with each of its own rules broken; more and fewer values and texts than there are
//! fields; slices of other lengths; and files of built records, which the walk accepts.

use super::moments::{HELD, LENT, QUARTER};
use super::{Scene, Script};
use crate::build::{Built, Form, NO_ACCOUNT};
use crate::calendar::Quarter;
use crate::command::Lent;
use crate::draft::{ENDS, MOST_WAGES};
use crate::layout::{Field, LENGTH};
use crate::rng::Rng;
use crate::values::*;
use crate::walk::Standing;
use crate::write::Written;

/// How many records are built of values by chance.
const BY_CHANCE: usize = 200;

pub fn add(scenes: &mut Vec<Scene>) {
    for tidy in tidy_values(QUARTER) {
        for place in 0..tidy.fields.len() {
            let tidy = tidy.clone();
            scenes.push(Box::new(move |rng, script| {
                every_value(rng, script, &tidy, place)
            }));
        }
        scenes.push(Box::new(move |rng, script| {
            other_lengths(rng, script, &tidy)
        }));
    }
    for rules in [rules_of_a, rules_of_e, rules_of_cease_date, rules_of_s] {
        scenes.push(Box::new(move |_, script| {
            rules().iter().for_each(|values| build(script, values));
        }));
    }
    scenes.push(Box::new(|_, script| fields_that_are_none(script)));
    for end in ENDS {
        scenes.push(Box::new(move |rng, script| whole_file(rng, script, end)));
    }
    for _ in 0..BY_CHANCE {
        scenes.push(Box::new(|rng, script| by_chance(rng, script)));
    }
}

fn build(script: &mut Script, values: &Values) {
    script.build(values.record, &values.entries(), &values.texts(), LENGTH);
}

/// The record, which nothing refuses.
fn built(values: &Values) -> Vec<u8> {
    let mut slice = vec![b'.'; LENGTH];
    let answer = values
        .record
        .build(&values.entries(), &values.texts(), &mut slice);
    assert_eq!(answer, None);
    slice
}

/// Every kind of value for one field; what is built is read.
fn every_value(rng: &mut Rng, script: &mut Script, tidy: &Values, place: usize) {
    let field = tidy.record.fields()[place];
    let values: Vec<Value> = match tidy.form(place) {
        Form::Constant => vec![Value::Constant(1), Value::Constant(u64::MAX)],
        Form::Number | Form::Account => numbers_for(&field).map(Value::Number).to_vec(),
        Form::Text => {
            let Value::Text(own) = &tidy.fields[place] else {
                unreachable!("it is a text");
            };
            texts_for(rng, &field, own)
                .into_iter()
                .map(Value::Text)
                .collect()
        }
    };
    for value in values {
        let other = tidy.with(place, value);
        build(script, &other);
        if script.answered == 0 {
            script.read_field(other.record.letter(), place as u64, &built(&other));
        }
    }
}

/// Numbers at the width's end, and some that rules name.
fn numbers_for(field: &Field) -> [u64; 10] {
    let beyond = 10_u64.pow((field.last + 1 - field.first) as u32);
    [
        0,
        1,
        9,
        beyond / 10,
        beyond - 1,
        beyond,
        beyond + 1,
        beyond * 10,
        NO_ACCOUNT - 1,
        NO_ACCOUNT,
    ]
}

/// Texts of the width, one longer and one shorter, with blanks and characters of every kind.
fn texts_for(rng: &mut Rng, field: &Field, own: &[u8]) -> Vec<Vec<u8>> {
    let width = field.last + 1 - field.first;
    let filled =
        |length: usize| -> Vec<u8> { b"Ab-c'D".iter().cycle().take(length).copied().collect() };
    let mut texts = vec![
        Vec::new(),
        filled(width),
        filled(width + 1),
        filled(width - 1),
        b"A".to_vec(),
        vec![b' '; width],
        vec![b' '; width + 1],
        vec![b' '],
        [own, &vec![b' '; width - own.len()]].concat(),
        [own, &vec![b' '; width - own.len() + 1]].concat(),
        [own, b" "].concat(),
        [b" ", &own[..own.len().min(width - 1)]].concat(),
        own.to_ascii_lowercase(),
        own.to_ascii_uppercase(),
        vec![b'0'; width],
    ];
    // The characters at the bounds of those that are permitted, and beyond.
    for bad in [0x00, 0x0A, 0x0D, 0x1F, 0x20, 0x7E, 0x7F, 0x80, 0xE9, 0xFF] {
        let mut text = filled(width);
        text[rng.end_or_between(1, width) - 1] = bad;
        texts.push(text);
    }
    for other in b"!&0@AZ[`az{" {
        let mut text = filled(width);
        text[rng.end_or_between(1, width) - 1] = *other;
        texts.push(text);
    }
    // Too long and bad, within the columns and after them: 85 comes first.
    texts.push([&[0x07], &filled(width)[..]].concat());
    texts.push([&filled(width)[..], &[0x07]].concat());
    texts
}

/// Slices, values, texts and answers of other lengths.
fn other_lengths(rng: &mut Rng, script: &mut Script, tidy: &Values) {
    let (entries, texts) = (tidy.entries(), tidy.texts());
    for length in [0, 1, 31, 100, 288, 289, 290, 291, 292, 300] {
        script.build(tidy.record, &entries, &texts, length);
        // Before any field.
        script.build(tidy.record, &[], &[], length);
    }
    for count in 0..entries.len() {
        script.build(tidy.record, &entries[..count], &texts, LENGTH);
    }
    let more = [&entries[..], &[7, u64::MAX]].concat();
    script.build(tidy.record, &more, &texts, LENGTH);
    for short in 1..=texts.len().min(12) {
        script.build(tidy.record, &entries, &texts[..texts.len() - short], LENGTH);
    }
    script.build(tidy.record, &entries, &[], LENGTH);
    let more = [&texts[..], b"AND MORE"].concat();
    script.build(tidy.record, &more_for_one(rng, tidy), &more, LENGTH);
    script.build(tidy.record, &entries, &more, LENGTH);
    for answer in 0..=Lent::MOST.answer {
        script.lend(Lent {
            answer,
            ..Lent::ENOUGH
        });
        script.build(tidy.record, &entries, &texts, LENGTH);
        script.build(tidy.record, &entries, &texts, LENGTH - 1);
        script.build(tidy.record, &entries[..1], &texts, LENGTH);
        script.read_field(tidy.record.letter(), 1, &built(tidy));
    }
    script.lend(Lent::ENOUGH);
}

/// One text takes more bytes, so that those after it begin later.
fn more_for_one(rng: &mut Rng, tidy: &Values) -> Vec<u64> {
    let places: Vec<usize> = (0..tidy.fields.len())
        .filter(|place| tidy.form(*place) == Form::Text)
        .collect();
    let mut entries = tidy.entries();
    entries[rng.pick(&places)] += rng.pick(&[1, 2, 1_000, u64::MAX / 2]);
    entries
}

/// Addresses that fit and that do not, as code, ZIP code and extension.
const ADDRESSES: [(&[u8], &[u8], &[u8]); 22] = [
    (b"ME", b"04332", b""),
    (b"me", b"04332", b"-1061"),
    (b"ME", b"0433", b""),
    (b"ME", b"04332 ", b""),
    (b"ME", b"K1A 0", b""),
    (b"ME", b"04332", b"1061"),
    (b"ME", b"04332", b"-106"),
    (b"ME", b"04332", b"B1"),
    (b"ME", b"04332", b"     "),
    (b"ON", b"K1A 0", b"B1"),
    (b"on", b"k1a 0", b"b1"),
    (b"ON", b"K1A 0", b"B1   "),
    (b"ON", b"K1A 0", b""),
    (b"ON", b"K1A0", b"B1"),
    (b"ON", b"04332", b"B1"),
    (b"ON", b"K1A 0", b"-1061"),
    (b"DC", b"20001", b""),
    (b"YT", b"Y1A 2", b"C6"),
    (b"PR", b"00901", b""),
    (b"M", b"04332", b""),
    (b"", b"", b""),
    (b"MEE", b"04332", b""),
];

fn with_addresses(tidy: &Values, state: usize, zip: usize, extension: usize) -> Vec<Values> {
    let with = |(code, five, more): &(&[u8], &[u8], &[u8])| {
        let other = tidy.with_text(state, code).with_text(zip, five);
        other.with_text(extension, more)
    };
    ADDRESSES.iter().map(with).collect()
}

/// Years and periods, which the walk alone holds against other quarters.
fn with_quarters(tidy: &Values, year: usize, period: usize) -> Vec<Values> {
    let mut list = Vec::new();
    for number in [0, 2024, 2025, 2026, 9999, 10_000] {
        list.push(tidy.with_number(year, number));
    }
    for number in [0, 1, 2, 3, 4, 6, 9, 10, 12, 13, 30, 99, 100, 103] {
        list.push(tidy.with_number(period, number));
    }
    list
}

/// FEINs around those that begin with 69.
const FEINS: [u64; 8] = [
    0,
    69,
    6_900_000,
    69_000_000,
    689_999_999,
    690_000_000,
    699_999_999,
    700_000_000,
];

fn rules_of_a() -> Vec<Values> {
    let tidy = values_of_a(QUARTER);
    let mut list = with_addresses(&tidy, STATE_OF_A, ZIP_OF_A, EXTENSION_OF_A);
    list.extend(with_quarters(&tidy, YEAR_OF_A, PERIOD_OF_A));
    list.extend(FEINS.map(|fein| tidy.with_number(FEIN_OF_A, fein)));
    // The first broken field, with another after it.
    let broken = tidy.with_number(FEIN_OF_A, 690_000_000);
    list.push(broken.with_number(YEAR_OF_A, 2024));
    list.push(broken.with_number(PERIOD_OF_A, 100));
    list.push(broken.with_text(STATE_OF_A, b"\x01\x02\x03"));
    list
}

fn rules_of_e() -> Vec<Values> {
    let tidy = values_of_e(QUARTER, 12_345_678, true);
    let mut list = with_addresses(&tidy, STATE_OF_E, ZIP_OF_E, EXTENSION_OF_E);
    list.extend(with_quarters(&tidy, YEAR_OF_E, PERIOD_OF_E));
    list.extend(FEINS.map(|fein| tidy.with_number(FEIN_OF_E, fein)));
    list.extend([0, 7, NO_ACCOUNT].map(|number| tidy.with_number(ACCOUNT_OF_E, number)));
    // "191 is tested only in period 09 (Appendix D); otherwise any character passes."
    for month in [3, 6, 9, 12] {
        for mark in [0, 1, 2, 9, 10] {
            let other = tidy.with_number(PERIOD_OF_E, month);
            list.push(other.with_number(FIFTEEN_OF_E, mark));
        }
    }
    for mark in [0, 1, 2, 9, 10] {
        list.push(tidy.with_number(S_FOLLOW_OF_E, mark));
    }
    list
}

/// Dates with each final flag; the quarter is the walk's.
fn rules_of_cease_date() -> Vec<Values> {
    let tidy = values_of_e(QUARTER, 12_345_678, true);
    let mut list = Vec::new();
    for mark in [0, 1, 2, 10] {
        for date in [
            0,
            1,
            2_292_028,
            2_292_027,
            2_290_000,
            1_312_026,
            3_312_026,
            4_312_026,
            4_012_026,
            12_319_999,
            13_012_026,
            1_002_026,
            99_999_999,
            100_000_000,
        ] {
            let other = tidy.with_number(FINAL_OF_E, mark);
            list.push(other.with_number(CEASE_DATE_OF_E, date));
        }
    }
    list
}

fn rules_of_s() -> Vec<Values> {
    let tidy = values_of_s(QUARTER, 12_345_678, 111_223_333, MOST_WAGES);
    let mut list = with_quarters(&tidy, YEAR_OF_S, PERIOD_OF_S);
    for id in [
        0,
        666,
        665_999_999,
        666_000_000,
        666_999_999,
        667_000_000,
        899_999_999,
        900_000_000,
        950_500_000,
        999_999_999,
        1_000_000_000,
    ] {
        list.push(tidy.with_number(IDENTITY_OF_S, id));
    }
    for name in [
        "ANNE2",
        "O'NEIL-ROY",
        "DE LA CRUZ",
        "-",
        "'",
        "A.",
        "\u{e9}",
        "O\u{b4}NEIL",
    ] {
        list.push(tidy.with_text(LAST_NAME_OF_S, name.as_bytes()));
    }
    list
}

/// Letters and numbers that name no field, and lines of other lengths.
fn fields_that_are_none(script: &mut Script) {
    let tidy = tidy_values(QUARTER);
    for values in &tidy {
        let (letter, line) = (values.record.letter(), built(values));
        let count = values.fields.len() as u64;
        for number in [count, count + 1, 71, 72, 1 << 32, u64::MAX] {
            script.read_field(letter, number, &line);
        }
        for number in 0..count {
            script.read_field(letter, number, &line.to_ascii_lowercase());
            script.read_field(letter, number, &line[..line.len() / 2]);
        }
        for length in [0, 1, 3, 4, 5, 139, 289] {
            script.read_field(letter, 1, &line[..length]);
            script.read_field(letter, count - 1, &line[..length]);
        }
    }
    for letter in [b'T', b'F', b'a', b'B', b' ', 0, 0xC1] {
        for number in [0, 1, 2, 5, 6, 7] {
            script.read_field(letter, number, &built(&tidy[0]));
        }
    }
    // A text of digits is no number where it has more than 19 columns.
    script.read_field(b'A', 6, &[b'7'; LENGTH]);
    script.read_field(b'S', 2, &[b'7'; LENGTH]);
    script.read_field(b'S', 8, &[b'9'; LENGTH]);
    script.read_field(b'F', 5, &[b'9'; LENGTH]);
}

/// A file of built records, with T and F as the library writes them: the walk accepts it.
fn whole_file(rng: &mut Rng, script: &mut Script, end: &'static [u8]) {
    script.lent = LENT;
    script.open(HELD);
    let quarter = rng.pick(&[QUARTER, HELD, Quarter::new(2025, 9)]);
    hand_on(script, &values_of_a(quarter), end);
    for fein in [12_345_678, 77] {
        let employees = rng.below(4);
        let e = values_of_e(quarter, fein, employees > 0);
        hand_on(script, &in_its_quarter(rng, quarter, e), end);
        for k in 0..employees {
            let id = rng.pick(&[0, 100_000_000 + k, 200_000_000 + k]);
            let wages = rng.pick(&[0, 1, MOST_WAGES / 4]);
            hand_on(script, &values_of_s(quarter, fein, id, wages), end);
        }
        hand_on_total(script, Written::T, end);
    }
    hand_on_total(script, Written::F, end);
    script.end();
    assert_eq!(script.state().standing, Standing::Accepted);
}

/// At times a final return, of a business that ceased in the quarter.
fn in_its_quarter(rng: &mut Rng, quarter: Quarter, e: Values) -> Values {
    if rng.one_in(2) {
        return e.with_number(ACCOUNT_OF_E, rng.below(10_000_000_000));
    }
    let date = quarter.month * 1_000_000 + 15 * 10_000 + quarter.year;
    e.with_number(FINAL_OF_E, 1)
        .with_number(CEASE_DATE_OF_E, date)
}

fn hand_on(script: &mut Script, values: &Values, end: &[u8]) {
    build(script, values);
    script.line(&[&built(values), end].concat());
    assert_eq!(script.answered, 0, "the walk accepts what was built");
}

fn hand_on_total(script: &mut Script, record: Written, end: &[u8]) {
    let mut slice = vec![b'.'; LENGTH];
    assert_eq!(record.write(&script.state(), &mut slice), None);
    script.write(record, LENGTH);
    script.line(&[&slice, end].concat());
    assert_eq!(script.answered, 0, "the walk accepts what was written");
}

/// A tidy record with one to three fields altered.
pub fn by_chance(rng: &mut Rng, script: &mut Script) {
    let [a, e, s] = tidy_values(QUARTER);
    let tidy = match rng.pick(&Built::ALL) {
        Built::A => a,
        Built::E => e,
        Built::S => s,
    };
    let mut other = tidy.clone();
    for _ in 0..rng.between(1, 3) {
        let place = rng.index(tidy.fields.len());
        other.fields[place] = any_value(rng, &tidy, place);
    }
    build(script, &other);
    if script.answered == 0 {
        let place = rng.below(tidy.fields.len() as u64);
        script.read_field(other.record.letter(), place, &built(&other));
    }
}

fn any_value(rng: &mut Rng, tidy: &Values, place: usize) -> Value {
    let field = tidy.record.fields()[place];
    let width = (field.last + 1 - field.first) as u64;
    match tidy.form(place) {
        Form::Constant => Value::Constant(rng.next()),
        Form::Number | Form::Account => {
            let digits = rng.between(1, width + 1) as u32;
            Value::Number(rng.below(10_u64.saturating_pow(digits)))
        }
        Form::Text => {
            let length = rng.between(0, width + 1);
            Value::Text((0..length).map(|_| any_character(rng)).collect())
        }
    }
}

/// Mostly a letter; no byte ends the command.
fn any_character(rng: &mut Rng) -> u8 {
    let any = rng.below(256) as u8;
    match rng.below(40) {
        0 if any != b'#' => any,
        1..=4 => b' ',
        5 => rng.pick(b"'-.0"),
        _ => b'a' + rng.below(26) as u8 - if rng.one_in(2) { 32 } else { 0 },
    }
}
