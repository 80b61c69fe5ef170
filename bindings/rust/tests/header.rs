//! The constants of the crate against those of `include/wage.h`: both name the same fields with the
//! same numbers, every other constant of the crate is the header's, and the library has each field
//! at the column that the header names.

use std::collections::BTreeMap;
use std::fs;
use std::path::Path;
use wage::{exports, fields, Employer, NO_ACCOUNT};

const LETTERS: &str = "AESTF";

fn read(path: &str) -> String {
    let path = Path::new(env!("CARGO_MANIFEST_DIR")).join(path);
    fs::read_to_string(path).expect("the file is there")
}

/// A constant of the header: its number, and the comment after it.
type Told = (u64, String);

/// Each `WAGE_NAME = number` of an enum and each `#define WAGE_NAME number`, without the `WAGE_`.
fn in_header() -> BTreeMap<String, Told> {
    let mut found = BTreeMap::new();
    for line in read("../../include/wage.h").lines() {
        let line = line.trim();
        let constant = line.strip_prefix("#define ").unwrap_or(line);
        let Some(constant) = constant.strip_prefix("WAGE_") else {
            continue;
        };
        let (constant, comment) = constant.split_once("/*").unwrap_or((constant, ""));
        let constant = constant.trim().trim_end_matches(',').replace(" = ", " ");
        let Some((name, number)) = constant.split_once(' ') else {
            continue;
        };
        if let Ok(number) = number.parse() {
            let comment = comment.trim_end_matches("*/").trim();
            let twice = found.insert(name.to_string(), (number, comment.to_string()));
            assert_eq!(twice, None, "{name}");
        }
    }
    found
}

/// Each `pub const NAME: type = number;` of a source of the crate.
fn in_crate(path: &str) -> BTreeMap<String, u64> {
    let mut found = BTreeMap::new();
    for line in read(path).lines() {
        let Some(constant) = line.strip_prefix("pub const ") else {
            continue;
        };
        let (name, value) = constant.split_once(": ").expect("it has a type");
        let (_, value) = value.split_once(" = ").expect("it has a value");
        let value = value.strip_suffix(';').expect("it is a line");
        if name != "NO_ACCOUNT" {
            let twice = found.insert(name.to_string(), value.parse().expect("a number"));
            assert_eq!(twice, None, "{name}");
        }
    }
    found
}

/// The constants of the header that begin with a record's letter: the fields, and their count.
fn fields_in_header() -> BTreeMap<String, Told> {
    let is_field = |name: &str| {
        let (letter, rest) = name.split_at(1);
        LETTERS.contains(letter) && rest.starts_with('_')
    };
    let all = in_header().into_iter();
    all.filter(|(name, _)| is_field(name)).collect()
}

#[test]
fn fields_of_the_header() {
    let told = fields_in_header().into_iter();
    let told: BTreeMap<String, u64> = told.map(|(name, (number, _))| (name, number)).collect();
    assert_eq!(told, in_crate("src/fields.rs"));
    for letter in LETTERS.chars() {
        assert!(told.contains_key(&format!("{letter}_FIELDS")), "{letter}");
    }
    // What is compiled is what is read.
    assert_eq!(told["A_PHONE_EXTENSION"], fields::A_PHONE_EXTENSION as u64);
    assert_eq!(told["E_CEASE_DATE"], fields::E_CEASE_DATE as u64);
    assert_eq!(told["S_FEIN"], fields::S_FEIN as u64);
    assert_eq!(told["T_WAGES"], fields::T_WAGES as u64);
    assert_eq!(told["F_WAGES"], fields::F_WAGES as u64);
}

#[test]
fn other_constants_of_the_header() {
    let told = in_header();
    let of_crate = in_crate("src/lib.rs");
    assert!(of_crate.len() >= 5);
    for (name, number) in of_crate {
        assert_eq!(told.get(&name).map(|told| told.0), Some(number), "{name}");
    }
    let no_account = "#define WAGE_NO_ACCOUNT ((uint64_t)-1)\n";
    assert!(read("../../include/wage.h").contains(no_account));
    assert_eq!(NO_ACCOUNT, u64::MAX);
    assert_eq!(std::mem::size_of::<Employer>(), 48);
}

/// The names of the numbers in an entry of the employer list: each line after one, up to a brace,
/// that has a name between these two.
fn names_after(text: &str, first: &str, before: &str, after: &str) -> Vec<String> {
    let (_, rest) = text.split_once(first).expect("it is declared");
    let (inside, _) = rest.split_once('}').expect("it ends");
    let name = |line: &str| {
        let rest = line.trim().strip_prefix(before)?;
        rest.split_once(after).map(|(name, _)| name.to_string())
    };
    inside.lines().filter_map(name).collect()
}

#[test]
fn entry_of_the_header() {
    let header = read("../../include/wage.h");
    let told = names_after(&header, "typedef struct wage_employer {", "uint64_t ", ";");
    let source = read("src/lib.rs");
    let of_crate = names_after(&source, "pub struct Employer {", "pub ", ": u64,");
    assert_eq!(told, of_crate);
    assert_eq!(told.len() * 8, std::mem::size_of::<Employer>());
}

/// The header's comments begin with the columns; the library has the same first column for the
/// number.
#[test]
fn columns_of_the_header() {
    for (name, (number, comment)) in fields_in_header() {
        let letter = name.as_bytes()[0];
        let first = |field| unsafe { exports::wage_field_first(letter, field) };
        let field = number as usize;
        if name.ends_with("_FIELDS") {
            assert_ne!(first(field - 1), 0, "{name}");
            assert_eq!(first(field), 0, "{name}");
        } else {
            let (column, _) = comment.split_once('-').expect("it has columns");
            assert_eq!(first(field).to_string(), column, "{name}");
        }
    }
}
