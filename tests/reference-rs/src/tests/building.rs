//! The building of A, E and S, and the reading of their fields. The records here are typed by hand
//! from the tables of document 000.

use super::Q1;
use crate::build::{first_column, read_number, text_length, Built, Form, NO_ACCOUNT};
use crate::calendar::Quarter;
use crate::edits::Refusal;
use crate::format::Format;
use crate::layout::LENGTH;
use crate::meaning::Room;
use crate::rng::Rng;
use crate::tables::Tables;
use crate::values::*;
use crate::walk;
use crate::write::Written;

const FEIN: u64 = 12_345_678;

/// The record that is built, or number and column of the refusal; the slice is then as it was.
fn built(values: &Values) -> Result<Vec<u8>, (u8, u64)> {
    built_of(values.record, &values.entries(), &values.texts())
}

fn built_of(record: Built, entries: &[u64], texts: &[u8]) -> Result<Vec<u8>, (u8, u64)> {
    let mut slice = vec![b'.'; LENGTH];
    match record.build(entries, texts, &mut slice) {
        None => Ok(slice),
        Some(refusal) => {
            assert_eq!(slice, [b'.'; LENGTH]);
            assert_eq!(refusal.line, 0);
            Err((refusal.number, refusal.column))
        }
    }
}

fn assert_built(values: &Values, wanted: &str) {
    assert_eq!(wanted.len(), LENGTH);
    let slice = built(values).expect("it is built");
    assert_eq!(String::from_utf8(slice).unwrap(), wanted);
}

#[test]
fn tidy_records() {
    let wanted = [
        format!("{:23}", "A2026123456789PFML03"),
        format!("{:50}", "NORTHERN PAYROLL LLC"),
        format!("{:40}", "12 WATER STREET"),
        format!("{:25}", "AUGUSTA"),
        format!("{:15}", "ME"),
        "04332-1061".to_string(),
        format!("{:30}", "JO SMITH"),
        format!("{:97}", "2075551212"),
    ];
    assert_built(&values_of_a(Q1), &wanted.concat());
    let wanted = [
        format!("{:23}", "E2026012345678"),
        format!("{:50}", "ORCHARD HILL FARM"),
        format!("{:40}", "4 RIDGE ROAD"),
        format!("{:25}", "BANGOR"),
        format!("{:15}", "ME"),
        format!("{:13}", "04401"),
        format!("{:20}", "PFML"),
        format!("{:14}", "00310"),
        format!("{:30}", "ANN ROY"),
        format!("{:30}", "ANN@ORCHARD.EXAMPLE"),
        format!("{:21}", "207555010012"),
        "000000000".to_string(),
    ];
    assert_built(&values_of_e(Q1, FEIN, true), &wanted.concat());
    let wanted = [
        "S111223333".to_string(),
        format!("{:20}", "O'NEIL-ROY"),
        format!("{:15}", "ANNE"),
        format!("{:18}", "032026"),
        format!("{:79}", "00000000123456"),
        format!("{:148}", "PFML012345678"),
    ];
    assert_built(
        &values_of_s(Q1, FEIN, 111_223_333, 123_456),
        &wanted.concat(),
    );
}

/// "An empty account number gives ten blanks."
#[test]
fn account_numbers() {
    let e = values_of_e(Q1, FEIN, true);
    for (number, wanted) in [
        (NO_ACCOUNT, b"          "),
        (0, b"0000000000"),
        (7, b"0000000007"),
        (9_999_999_999, b"9999999999"),
    ] {
        let slice = built(&e.with_number(ACCOUNT_OF_E, number)).unwrap();
        assert_eq!(slice[172..182], *wanted);
    }
    for number in [10_000_000_000, NO_ACCOUNT - 1] {
        let other = e.with_number(ACCOUNT_OF_E, number);
        assert_eq!(built(&other), Err((85, 173)));
    }
    // It is empty in no other field.
    let other = e.with_number(FEIN_OF_E, NO_ACCOUNT);
    assert_eq!(built(&other), Err((85, 6)));
}

/// "84, slice not 290 bytes, first"
#[test]
fn other_slices() {
    for values in tidy_values(Q1) {
        for length in [0, 1, 289, 291, 580] {
            let mut slice = vec![b'.'; length];
            let of_tidy = values.record;
            for (entries, texts) in [(values.entries(), values.texts()), (vec![], vec![])] {
                let answer = of_tidy.build(&entries, &texts, &mut slice);
                assert_eq!(answer, Some(Refusal::new(84, 0, 0)));
                assert_eq!(slice, vec![b'.'; length]);
            }
        }
    }
}

/// Refusals by hand.
#[test]
fn refusals() {
    let (a, e) = (values_of_a(Q1), values_of_e(Q1, FEIN, true));
    let s = values_of_s(Q1, FEIN, 1, 1);
    for (values, number, column) in [
        (a.with_number(YEAR_OF_A, 10_000), 85, 2),
        (a.with_number(YEAR_OF_A, 2024), 38, 2),
        (a.with_number(FEIN_OF_A, 690_000_000), 44, 6),
        (a.with_number(PERIOD_OF_A, 100), 85, 19),
        (a.with_number(PERIOD_OF_A, 4), 40, 19),
        (a.with_text(6, &[b'A'; 51]), 85, 24),
        (a.with_text(6, &[b'\t'; 51]), 85, 24),
        (a.with_text(6, b""), 32, 24),
        (a.with_text(6, b" A"), 33, 24),
        (a.with_text(6, b"A\tB"), 3, 25),
        (a.with_text(6, b"CAF\xC9"), 3, 27),
        (a.with_text(7, b"    "), 32, 74),
        (a.with_text(STATE_OF_A, b"M"), 35, 139),
        (a.with_text(STATE_OF_A, b"ME "), 85, 139),
        (a.with_text(STATE_OF_A, b"ON"), 36, 154),
        (a.with_text(EXTENSION_OF_A, b"1061"), 37, 159),
        (a.with_text(15, b"12345"), 85, 204),
        (a.with_text(15, b" 1"), 33, 204),
        (e.with_text(STATE_OF_E, b"ON"), 37, 149),
        (e.with_number(S_FOLLOW_OF_E, 2), 47, 190),
        (e.with_number(S_FOLLOW_OF_E, 10), 85, 190),
        (e.with_number(FIFTEEN_OF_E, 10), 85, 191),
        (e.with_number(CEASE_DATE_OF_E, 3_312_026), 50, 283),
        (e.with_number(FINAL_OF_E, 1), 51, 283),
        (s.with_number(IDENTITY_OF_S, 666_000_001), 52, 2),
        (s.with_text(LAST_NAME_OF_S, b"ANNE2"), 54, 15),
        (s.with_text(LAST_NAME_OF_S, &[b'A'; 21]), 85, 11),
    ] {
        assert_eq!(built(&values), Err((number, column)), "{values:?}");
    }
    let last = e.with_number(FINAL_OF_E, 1);
    let last = |date| built(&last.with_number(CEASE_DATE_OF_E, date));
    assert_eq!(last(2_292_027), Err((48, 283)));
    assert!(last(2_292_028).is_ok());
    // A date of another quarter, which the walk refuses with 49.
    assert!(last(12_312_027).is_ok());
}

/// "191 is tested only in period 09"
#[test]
fn fifteen_employees() {
    for (month, mark, passes) in [(9, 2, false), (9, 1, true), (9, 0, true), (6, 2, true)] {
        let e = values_of_e(Quarter::new(2026, month), FEIN, true);
        let answer = built(&e.with_number(FIFTEEN_OF_E, mark));
        assert_eq!(answer.is_ok(), passes, "{month}, {mark}");
        assert!(passes || answer == Err((47, 191)));
    }
}

/// An entry that is not there is 0, a text ends where the texts end.
#[test]
fn short_and_long() {
    let a = values_of_a(Q1);
    let (entries, texts) = (a.entries(), a.texts());
    let whole = built(&a).unwrap();
    let more = [&texts[..], b"MORE"].concat();
    let longer = [&entries[..], &[9]].concat();
    assert_eq!(built_of(Built::A, &longer, &more), Ok(whole.clone()));
    assert_eq!(built_of(Built::A, &entries[..15], &texts), Ok(whole));
    assert_eq!(built_of(Built::A, &entries[..1], &texts), Err((38, 2)));
    assert_eq!(built_of(Built::A, &[], &[]), Err((38, 2)));
    assert_eq!(built_of(Built::A, &entries, &[]), Err((32, 24)));
    // The contact ends early.
    let short = built_of(Built::A, &entries, &texts[..texts.len() - 3]).unwrap();
    assert_eq!(short[163..172], *b"JO SM    ");
}

/// "Reading a built record gives the values back, with capitals for small letters and without
/// trailing blanks."
fn assert_read_back(values: &Values, line: &[u8]) {
    let letter = values.record.letter();
    for (place, value) in values.fields.iter().enumerate() {
        let field = place as u64;
        let first = first_column(letter, field);
        assert_eq!(first, values.record.fields()[place].first as u64);
        let length = text_length(letter, field, line) as usize;
        let start = first as usize - 1;
        match value {
            Value::Number(NO_ACCOUNT) => assert_eq!(length, 0),
            Value::Number(number) => assert_eq!(read_number(letter, field, line), Ok(*number)),
            Value::Text(text) => {
                let blanks = text.iter().rev().take_while(|c| **c == b' ').count();
                let wanted = text[..text.len() - blanks].to_ascii_uppercase();
                assert_eq!(line[start..start + length], wanted);
            }
            Value::Constant(_) => {}
        }
    }
}

/// Any of the values that a field may have.
fn any_values(rng: &mut Rng) -> Values {
    let [a, e, s] = tidy_values(Q1);
    let tidy = match rng.pick(&Built::ALL) {
        Built::A => a,
        Built::E => e,
        Built::S => s,
    };
    let place = rng.index(tidy.fields.len());
    let field = tidy.record.fields()[place];
    let width = (field.last + 1 - field.first) as u64;
    let value = match tidy.form(place) {
        Form::Constant => Value::Constant(rng.next()),
        Form::Number | Form::Account => Value::Number(rng.below(10_u64.pow(width as u32) + 1)),
        Form::Text => {
            let length = rng.between(0, width);
            Value::Text((0..length).map(|_| rng.pick(b"Ab- c'Z")).collect())
        }
    };
    tidy.with(place, value)
}

#[test]
fn values_come_back() {
    let mut times = [0; 256];
    for k in 0..20_000 {
        let values = any_values(&mut Rng::of(41, 0, k));
        match built(&values) {
            Ok(line) => {
                times[0] += 1;
                assert!(!line.iter().any(u8::is_ascii_lowercase));
                assert_read_back(&values, &line);
            }
            Err((number, _)) => times[usize::from(number)] += 1,
        }
    }
    assert!(times[0] > 2_000, "{}", times[0]);
    // Numbers are filled with digits, and what no caller gives is as it must be: 30, 31 and 34
    // never come.
    let seen: Vec<usize> = (1..256).filter(|number| times[*number] > 0).collect();
    assert_eq!(seen, [32, 33, 35, 36, 37, 38, 40, 44, 47, 50, 51, 52, 85]);
}

/// In a file with T and F after it the walk finds no rule broken but those that are its own.
#[test]
fn the_walk_accepts_what_is_built() {
    let room = Room {
        ids: 3,
        employers: 2,
    };
    let mut times = [0; 2];
    for k in 0..20_000 {
        let mut rng = Rng::of(42, 0, k);
        let altered = any_values(&mut rng);
        let [a, e, s] = tidy_values(Q1).map(|tidy| match tidy.record == altered.record {
            true => altered.clone(),
            false => tidy,
        });
        let records: Result<Vec<_>, _> = [a, e, s].iter().map(built).collect();
        let Ok(records) = records else {
            continue;
        };
        let mut tables = Tables::zero(room);
        let (ids, list) = tables.lend(room);
        let (mut state, _) = walk::open(Format::Pfml, Q1, ids, list);
        let mut numbers = Vec::new();
        for record in records {
            let line = [&record[..], b"\n"].concat();
            let refusal = walk::line(&mut state, ids, list, &line).refusal;
            numbers.extend(refusal.map(|refusal| refusal.number));
        }
        if numbers.is_empty() {
            for record in Written::BOTH {
                let mut line = vec![b'\n'; LENGTH + 1];
                assert_eq!(record.write(&state, &mut line[..LENGTH]), None);
                assert_eq!(walk::line(&mut state, ids, list, &line).refusal, None);
            }
            assert_eq!(walk::end(&mut state, ids, list), None);
        }
        let of_the_walk = |number: &u8| matches!(number, 16 | 39 | 41..=43 | 46 | 49);
        assert!(numbers.iter().all(of_the_walk), "{numbers:?}");
        times[usize::from(numbers.is_empty())] += 1;
    }
    assert!(times.iter().all(|many| *many > 100), "{times:?}");
}

#[test]
fn fields_that_are_none() {
    let line = built(&values_of_a(Q1)).unwrap();
    for (letter, field) in [(b'A', 17), (b'B', 0), (b'a', 1), (b'F', u64::MAX)] {
        assert_eq!(read_number(letter, field, &line), Err(0));
        assert_eq!(text_length(letter, field, &line), 0);
        assert_eq!(first_column(letter, field), 0);
    }
    assert_eq!(read_number(b'A', 1, &line), Ok(2026));
    assert_eq!(read_number(b'A', 1, &line[..4]), Err(5));
    assert_eq!(read_number(b'A', 1, &[]), Err(2));
    assert_eq!(read_number(b'A', 5, &line), Err(21));
    assert_eq!(read_number(b'A', 6, &[b'7'; LENGTH]), Err(24));
    assert_eq!(text_length(b'A', 6, &line[..28]), 5);
    assert_eq!(text_length(b'A', 6, &line[..20]), 0);
}
