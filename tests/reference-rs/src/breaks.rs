//! For each reason, in each record where it can occur, a way to break exactly that edit of a valid
//! draft. A break tells the refusal that it means to cause, which the tests hold against the
//! meaning; so the edits are read twice, once as rules and once as ways to break them.
//!
//! 61, 62 and 63 need long files and are in `big`.

use crate::calendar::{days_in, Quarter};
use crate::draft::*;
use crate::edits::Refusal;
use crate::layout::{region_of, Region, LENGTH};
use crate::rng::Rng;

type Apply = Box<dyn Fn(&mut Rng, &mut Draft) -> Option<Refusal>>;

/// One way to break one edit.
pub struct Break {
    #[cfg(test)]
    number: u8,
    pub name: String,
    apply: Apply,
}

impl Break {
    /// Breaks the draft and tells the refusal meant; none if this draft has nothing to break so.
    pub fn apply(&self, rng: &mut Rng, draft: &mut Draft) -> Option<Refusal> {
        (self.apply)(rng, draft)
    }
}

/// Every break there is.
pub fn all() -> Vec<Break> {
    let mut list = List(Vec::new());
    lengths(&mut list);
    ends_between_lines(&mut list);
    ends_of_input(&mut list);
    characters_and_letters(&mut list);
    input_ends(&mut list);
    places(&mut list);
    numbers(&mut list);
    blanks_and_texts(&mut list);
    entities_and_states(&mut list);
    zip_codes(&mut list);
    years_and_periods(&mut list);
    quarters_of_a(&mut list);
    quarters_of_e_and_s(&mut list);
    feins(&mut list);
    flags_and_dates(&mut list);
    employees(&mut list);
    totals(&mut list);
    headers(&mut list);
    list.0
}

struct List(Vec<Break>);

impl List {
    fn add<F>(&mut self, number: u8, name: impl Into<String>, apply: F)
    where
        F: Fn(&mut Rng, &mut Draft) -> Option<Refusal> + 'static,
    {
        self.0.push(Break {
            #[cfg(test)]
            number,
            name: format!("{number}: {}", name.into()),
            apply: Box::new(apply),
        });
    }

    /// A break at some line with a given letter: the change is given the line's place.
    fn at_line<F>(&mut self, number: u8, letter: u8, name: impl Into<String>, change: F)
    where
        F: Fn(&mut Rng, &mut Draft, usize) -> Option<Refusal> + 'static,
    {
        let name = format!("{} {}", name.into(), char::from(letter));
        self.add(number, name, move |rng, draft| {
            let place = draft.choose(rng, letter)?;
            change(rng, draft, place)
        });
    }

    /// A break of one line with a given letter: the change is given the line and tells the column.
    fn in_line<F>(&mut self, number: u8, letter: u8, name: impl Into<String>, change: F)
    where
        F: Fn(&mut Rng, &mut Line) -> Option<usize> + 'static,
    {
        let name = format!("{} of", name.into());
        self.at_line(number, letter, name, move |rng, draft, place| {
            let column = change(rng, &mut draft.lines[place])?;
            Some(meant(number, place, column))
        });
    }
}

/// The refusal of the line at a place (counted from 0).
fn meant(number: u8, place: usize, column: usize) -> Refusal {
    Refusal::new(number, place as u64 + 1, column as u64)
}

const RECORDS: [u8; 5] = *b"AESTF";

/// 1.
fn lengths(list: &mut List) {
    for letter in RECORDS {
        list.in_line(1, letter, "too short", |rng, line| {
            let any = rng.column(1, 289);
            let length = rng.pick(&[289, any]);
            while line.text.len() > length {
                let column = rng.column(1, line.text.len());
                line.text.remove(column - 1);
            }
            Some(length + 1)
        });
        list.in_line(1, letter, "too long", |rng, line| {
            let any = rng.column(1, 600);
            for _ in 0..rng.pick(&[1, any]) {
                let place = rng.index(line.text.len() + 1);
                line.text.insert(place, printable(rng));
            }
            Some(291)
        });
    }
}

/// 1 again: ends too many and too few.
fn ends_between_lines(list: &mut List) {
    for letter in RECORDS {
        list.at_line(1, letter, "empty line behind", |rng, draft, place| {
            // CR and then LF would be one end.
            let ends = match draft.lines[place].end == CR {
                true => &ENDS[1..],
                false => &ENDS[..],
            };
            let end = rng.pick(ends);
            draft.lines.insert(place + 1, Line::new(Vec::new(), end));
            Some(meant(1, place + 1, 1))
        });
    }
    for letter in *b"AEST" {
        list.at_line(
            1,
            letter,
            "no end between the next and",
            |_, draft, place| {
                if place + 1 == draft.lines.len() {
                    return None;
                }
                draft.lines[place].end.clear();
                Some(meant(1, place, 291))
            },
        );
    }
    list.add(1, "end before the first line", |rng, draft| {
        let end = rng.pick(&ENDS);
        draft.lines.insert(0, Line::new(Vec::new(), end));
        Some(meant(1, 0, 1))
    });
}

/// 2.
fn ends_of_input(list: &mut List) {
    for letter in RECORDS {
        list.at_line(2, letter, "no end behind", |_, draft, place| {
            draft.lines.truncate(place + 1);
            draft.lines[place].end.clear();
            Some(meant(2, place, 291))
        });
    }
}

/// A byte outside hex 20 to 7E that ends no line.
pub fn bad_byte(rng: &mut Rng) -> u8 {
    if rng.one_in(2) {
        return rng.pick(&[0x00, 0x1F, 0x7F, 0x80, 0xFF, 0x09, 0x1A, 0xA0]);
    }
    loop {
        let byte = rng.below(256) as u8;
        if !(0x20..=0x7E).contains(&byte) && byte != b'\n' && byte != b'\r' {
            return byte;
        }
    }
}

/// 3 and 4.
fn characters_and_letters(list: &mut List) {
    for letter in RECORDS {
        list.in_line(3, letter, "bad character", |rng, line| {
            let column = rng.column(1, LENGTH);
            line.put(column, &[bad_byte(rng)]);
            if column < LENGTH && rng.one_in(3) {
                let later = rng.column(column + 1, LENGTH);
                line.put(later, &[bad_byte(rng)]);
            }
            Some(column)
        });
        list.in_line(4, letter, "bad letter in place", |rng, line| loop {
            let c = printable(rng);
            if !RECORDS.contains(&c.to_ascii_uppercase()) {
                line.put(1, &[c]);
                return Some(1);
            }
        });
    }
}

/// 5, 6, 7 and 8.
fn input_ends(list: &mut List) {
    list.add(5, "empty file", |_, draft| {
        draft.lines.clear();
        Some(meant(5, 0, 1))
    });
    for (number, letter) in [(6, b'A'), (7, b'E'), (7, b'S'), (8, b'T')] {
        list.at_line(
            number,
            letter,
            "input ends behind",
            move |_, draft, place| {
                draft.lines.truncate(place + 1);
                Some(meant(number, place + 1, 1))
            },
        );
    }
}

/// What stands before a record that is put in out of place.
#[derive(Clone, Copy, Debug, PartialEq)]
enum Behind {
    Nothing,
    A,
    ESaying0,
    ESaying1,
    S,
    T,
    F,
}

/// Each record after each other one where it may not stand. Typed from "Place: before A, ...".
const OUT_OF_PLACE: [(Behind, u8, u8); 26] = [
    (Behind::Nothing, b'E', 10),
    (Behind::Nothing, b'S', 10),
    (Behind::Nothing, b'T', 10),
    (Behind::Nothing, b'F', 10),
    (Behind::A, b'A', 11),
    (Behind::A, b'S', 12),
    (Behind::A, b'T', 13),
    (Behind::A, b'F', 14),
    (Behind::ESaying0, b'A', 11),
    (Behind::ESaying0, b'E', 15),
    (Behind::ESaying0, b'S', 16),
    (Behind::ESaying0, b'F', 17),
    (Behind::ESaying1, b'A', 11),
    (Behind::ESaying1, b'E', 15),
    (Behind::ESaying1, b'F', 17),
    (Behind::S, b'A', 11),
    (Behind::S, b'E', 15),
    (Behind::S, b'F', 17),
    (Behind::T, b'A', 11),
    (Behind::T, b'S', 12),
    (Behind::T, b'T', 18),
    (Behind::F, b'A', 11),
    (Behind::F, b'F', 19),
    (Behind::F, b'E', 20),
    (Behind::F, b'S', 20),
    (Behind::F, b'T', 20),
];

/// The place right after such a record.
fn place_behind(rng: &mut Rng, draft: &mut Draft, behind: Behind) -> Option<usize> {
    let saying = |draft: &Draft, mark: &[u8]| -> Vec<usize> {
        let mut places = draft.places(b'E');
        places.retain(|place| draft.lines[*place].columns(190, 190) == mark);
        places
    };
    let places = match behind {
        Behind::Nothing => return Some(0),
        Behind::A => draft.places(b'A'),
        Behind::ESaying0 => saying(draft, b"0"),
        Behind::ESaying1 => saying(draft, b"1"),
        Behind::S => draft.places(b'S'),
        Behind::T => draft.places(b'T'),
        Behind::F => draft.places(b'F'),
    };
    if places.is_empty() {
        return None;
    }
    Some(rng.pick(&places) + 1)
}

/// A record that would be fine elsewhere: its FEIN that of the E above, if it has one.
pub fn record_for(rng: &mut Rng, draft: &Draft, place: usize, letter: u8) -> Vec<u8> {
    let above = (0..place).rev().find(|p| draft.is(*p, b'E'));
    let fein = match above {
        Some(e) => draft.lines[e].value(6, 14),
        None => random_fein(rng),
    };
    match letter {
        b'A' => random_record_a(rng, draft.quarter),
        b'E' => {
            let (fein, s_follow) = (random_fein(rng), rng.one_in(2));
            random_record_e_under(rng, (draft.held, draft.quarter), fein, s_follow)
        }
        b'S' => {
            let id = random_id(rng);
            random_record_s(rng, draft.quarter, fein, id)
        }
        b'T' => record_t(fein, 0, 0),
        _ => record_f(0, 0, 0),
    }
}

/// 10 to 20.
fn places(list: &mut List) {
    for (behind, letter, number) in OUT_OF_PLACE {
        let name = format!("{} behind {:?}", letter as char, behind);
        list.add(number, name, move |rng, draft| {
            let place = place_behind(rng, draft, behind)?;
            let record = record_for(rng, draft, place, letter);
            draft.insert(place, record);
            draft.total();
            Some(meant(number, place, 1))
        });
    }
}

/// The fields of type N whose class test gives 30.
const NUMBERS: [(u8, usize, usize); 18] = [
    (b'A', 2, 5),
    (b'A', 6, 14),
    (b'A', 194, 203),
    (b'E', 2, 5),
    (b'E', 6, 14),
    (b'E', 173, 182),
    (b'E', 261, 270),
    (b'E', 283, 290),
    (b'S', 2, 10),
    (b'S', 48, 51),
    (b'S', 64, 77),
    (b'S', 147, 155),
    (b'T', 2, 8),
    (b'T', 13, 21),
    (b'T', 27, 40),
    (b'F', 2, 11),
    (b'F', 12, 21),
    (b'F', 41, 55),
];

/// 30.
fn numbers(list: &mut List) {
    for (letter, first, last) in NUMBERS {
        list.in_line(30, letter, format!("no digit in {first}-{last}"), {
            move |rng, line| {
                if (letter, first) == (b'E', 173) {
                    line.put(first, &random_digits(rng, 10));
                }
                let column = rng.column(first, last);
                line.put(column, &[not_digit(rng)]);
                if column < last && rng.one_in(3) {
                    let later = rng.column(column + 1, last);
                    line.put(later, &[not_digit(rng)]);
                }
                // Ten blanks cannot come about: at most two columns were changed.
                Some(column)
            }
        });
        if (letter, first) != (b'E', 173) {
            list.in_line(30, letter, format!("blank {first}-{last}"), {
                move |_, line| {
                    line.put(first, &vec![b' '; last + 1 - first]);
                    Some(first)
                }
            });
        }
    }
    list.in_line(30, b'E', "partly blank account number", |rng, line| {
        line.put(173, b"          ");
        let column = rng.column(173, 182);
        line.put(column, b"7");
        Some(if column == 173 { 174 } else { 173 })
    });
}

const BLANKS: [(u8, usize, usize); 18] = [
    (b'A', 21, 23),
    (b'A', 141, 153),
    (b'A', 208, 290),
    (b'E', 15, 23),
    (b'E', 141, 148),
    (b'E', 159, 166),
    (b'E', 171, 172),
    (b'E', 183, 186),
    (b'E', 192, 200),
    (b'E', 275, 281),
    (b'S', 43, 45),
    (b'S', 52, 63),
    (b'S', 78, 142),
    (b'S', 156, 290),
    (b'T', 22, 26),
    (b'T', 41, 290),
    (b'F', 26, 40),
    (b'F', 56, 290),
];

const REQUIRED: [(u8, usize, usize); 11] = [
    (b'A', 24, 73),
    (b'A', 74, 113),
    (b'A', 114, 138),
    (b'A', 164, 193),
    (b'E', 24, 73),
    (b'E', 74, 113),
    (b'E', 114, 138),
    (b'E', 201, 230),
    (b'E', 231, 260),
    (b'S', 11, 30),
    (b'S', 31, 42),
];

const OPTIONAL: [(u8, usize, usize); 2] = [(b'A', 204, 207), (b'E', 271, 274)];

/// 31, 32 and 33.
fn blanks_and_texts(list: &mut List) {
    for (letter, first, last) in BLANKS {
        list.in_line(31, letter, format!("no blank in {first}-{last}"), {
            move |rng, line| {
                let column = rng.end_or_between(first, last);
                line.put(column, &[not_blank(rng)]);
                if column < last && rng.one_in(3) {
                    let later = rng.column(column + 1, last);
                    line.put(later, &[not_blank(rng)]);
                }
                Some(column)
            }
        });
    }
    for (letter, first, last) in REQUIRED {
        list.in_line(32, letter, format!("blank {first}-{last}"), {
            move |_, line| {
                line.put(first, &vec![b' '; last + 1 - first]);
                Some(first)
            }
        });
    }
    for (letter, first, last) in REQUIRED.into_iter().chain(OPTIONAL) {
        list.in_line(33, letter, format!("not left justified {first}-{last}"), {
            move |rng, line| {
                line.put(first, b" ");
                line.put(rng.column(first + 1, last), b"X");
                Some(first)
            }
        });
    }
}

const ENTITIES: [(u8, usize); 5] = [(b'A', 15), (b'E', 167), (b'S', 143), (b'T', 9), (b'F', 22)];

const NO_ENTITIES: [&[u8; 4]; 12] = [
    b"    ", b"PFM ", b" FML", b"PFMI", b"QFML", b"PGML", b"PFNL", b"PFMM", b"WHAM", b"LMFP",
    b"0000", b"PFM\x2E",
];

/// ZIP codes and extensions that do not fit a state, and those that do not fit a province; these are
/// the same in all formats, as are the codes.
pub const NO_ZIP_IN_STATE: [&[u8; 5]; 9] = [
    b"K1A 0", b"0433 ", b" 0433", b"     ", b"04A32", b"O4332", b"0433-", b"-0433", b"A4332",
];
pub const NO_ZIP_IN_PROVINCE: [&[u8; 5]; 10] = [
    b"04332", b"K1A0B", b"K1A-0", b"11A 0", b"KAA 0", b"K11 0", b"K1A  ", b"K1A A", b"     ",
    b" K1A0",
];
pub const NO_EXTENSION_IN_STATE: [&[u8; 5]; 9] = [
    b"1061 ", b"01061", b"-106 ", b"- 061", b"-10A1", b" 1061", b"B1   ", b"-    ", b"    1",
];
pub const NO_EXTENSION_IN_PROVINCE: [&[u8; 5]; 10] = [
    b"     ", b"-1061", b"1B   ", b"BB   ", b"11   ", b"B1X  ", b"B1 X ", b"B1  X", b" B1  ",
    b"B    ",
];

pub fn is_in_province(line: &Line) -> bool {
    let code = line.columns(139, 140);
    region_of([code[0], code[1]]) == Region::Province
}

/// Codes that name neither a state nor a province here: old ones, territories, halves.
const NO_STATES: [&[u8; 2]; 14] = [
    b"  ", b"M ", b" M", b"23", b"PR", b"GU", b"VI", b"AS", b"MP", b"NF", b"PQ", b"CN", b"ZZ",
    b"M3",
];

pub fn unknown_state(rng: &mut Rng) -> [u8; 2] {
    loop {
        let code = match rng.below(3) {
            0 => *rng.pick(&NO_STATES),
            1 => [printable(rng), printable(rng)],
            _ => [rng.between(65, 90) as u8, rng.between(65, 90) as u8],
        };
        if region_of(code.map(|c| c.to_ascii_uppercase())) == Region::Unknown {
            return code;
        }
    }
}

/// 34 and 35.
fn entities_and_states(list: &mut List) {
    for (letter, first) in ENTITIES {
        list.in_line(34, letter, "wrong entity code", move |rng, line| {
            let entity = rng.pick(&NO_ENTITIES);
            line.put(first, entity);
            Some(first)
        });
    }
    for letter in *b"AE" {
        list.in_line(35, letter, "unknown state", |rng, line| {
            line.put(139, &unknown_state(rng));
            Some(139)
        });
    }
}

/// 36 and 37.
fn zip_codes(list: &mut List) {
    for (letter, zip, extension) in [(b'A', 154, 159), (b'E', 154, 149)] {
        list.in_line(36, letter, "wrong ZIP code", move |rng, line| {
            let wrong = match is_in_province(line) {
                true => rng.pick(&NO_ZIP_IN_PROVINCE),
                false => rng.pick(&NO_ZIP_IN_STATE),
            };
            line.put(zip, wrong);
            Some(zip)
        });
        list.in_line(37, letter, "wrong extension", move |rng, line| {
            let wrong = match is_in_province(line) {
                true => rng.pick(&NO_EXTENSION_IN_PROVINCE),
                false => rng.pick(&NO_EXTENSION_IN_STATE),
            };
            line.put(extension, wrong);
            Some(extension)
        });
    }
}

const YEARS: [(u8, usize); 3] = [(b'A', 2), (b'E', 2), (b'S', 48)];
const PERIODS: [(u8, usize); 3] = [(b'A', 19), (b'E', 188), (b'S', 46)];

pub const NO_PERIODS: [&[u8; 2]; 24] = [
    b"00", b"01", b"02", b"04", b"05", b"07", b"08", b"10", b"11", b"13", b"15", b"99", b"30",
    b"60", b"90", b"21", b"  ", b" 3", b"3 ", b"0A", b"O3", b"-3", b"1 ", b"+6",
];

/// 38 and 40.
fn years_and_periods(list: &mut List) {
    for (letter, first) in YEARS {
        list.in_line(38, letter, "year below 2025", move |rng, line| {
            let any = rng.below(2025);
            let year = rng.pick(&[0, 1, 25, 1925, 2000, 2024, 2024, any]);
            line.put_number(first, first + 3, year);
            Some(first)
        });
    }
    for (letter, first) in PERIODS {
        list.in_line(40, letter, "no period", move |rng, line| {
            let period = rng.pick(&NO_PERIODS);
            line.put(first, period);
            Some(first)
        });
    }
}

/// 39 and 41.
fn quarters_of_a(list: &mut List) {
    list.at_line(
        39,
        b'A',
        "year beyond the current quarter's",
        |rng, draft, place| {
            let next = draft.held.current_after()?.year + 1;
            if next > 9999 {
                return None;
            }
            let any = rng.between(next, 9999);
            let year = rng.pick(&[next, 9999, any]);
            draft.lines[place].put_number(2, 5, year);
            Some(meant(39, place, 2))
        },
    );
    list.at_line(
        41,
        b'A',
        "period behind the current quarter",
        |rng, draft, place| {
            let current = draft.held.current_after()?;
            let later: Vec<u64> = (current.month + 1..=12).filter(|m| m % 3 == 0).collect();
            if later.is_empty() {
                return None;
            }
            draft.lines[place].put_number(2, 5, current.year);
            draft.lines[place].put_number(19, 20, rng.pick(&later));
            Some(meant(41, place, 19))
        },
    );
}

/// 42 and 43.
fn quarters_of_e_and_s(list: &mut List) {
    for (letter, first) in YEARS.into_iter().skip(1) {
        list.at_line(42, letter, "another year in", move |rng, draft, place| {
            let own = draft.quarter.year;
            let any = rng.between(2025, 9999);
            let near = rng.pick(&[own - 1, own + 1, any]);
            if near == own || !(2025..=9999).contains(&near) {
                return None;
            }
            draft.lines[place].put_number(first, first + 3, near);
            Some(meant(42, place, first))
        });
    }
    for (letter, first) in PERIODS.into_iter().skip(1) {
        list.at_line(43, letter, "another period in", move |rng, draft, place| {
            let mut others = vec![3, 6, 9, 12];
            others.retain(|month| *month != draft.quarter.month);
            draft.lines[place].put_number(first, first + 1, rng.pick(&others));
            Some(meant(43, place, first))
        });
    }
}

/// 44 to 46, and 64.
fn feins(list: &mut List) {
    for letter in *b"AE" {
        list.in_line(44, letter, "FEIN with 69", |rng, line| {
            let below = rng.below(10_000_000);
            let fein = 690_000_000 + rng.pick(&[0, 9_999_999, below]);
            line.put_number(6, 14, fein);
            Some(6)
        });
        list.in_line(64, letter, "FEIN of nine zeros", |_, line| {
            line.put(6, b"000000000");
            Some(6)
        });
    }
    list.add(45, "FEIN of an earlier E", |rng, draft| {
        let place = draft.choose(rng, b'E')?;
        let mut earlier = draft.places(b'E');
        earlier.retain(|other| *other < place);
        if earlier.is_empty() {
            draft.focus = None;
            return None;
        }
        let fein = draft.lines[rng.pick(&earlier)].value(6, 14);
        draft.lines[place].put_number(6, 14, fein);
        Some(meant(45, place, 6))
    });
    for (letter, first) in [(b'S', 147), (b'T', 13)] {
        list.in_line(46, letter, "another FEIN", move |rng, line| {
            let own = line.value(first, first + 8);
            let far = rng.below(1_000_000_000);
            let other = rng.pick(&[own + 1, own ^ 1, own + 100_000_000, 690_000_000, 0, far])
                % 1_000_000_000;
            if other == own {
                return None;
            }
            line.put_number(first, first + 8, other);
            Some(first)
        });
    }
}

/// Some value MMDDYYYY that is no date, and not zero.
fn no_date(rng: &mut Rng, quarter: Quarter) -> u64 {
    let known = [
        2_302_028, 2_292_027, 2_292_100, 2_291_900, 4_312_026, 6_312_026, 9_312_026, 11_312_026,
        152_026, 13_012_026, 1_002_026, 1_322_026, 99_999_999, 1, 2025, 10_000,
    ];
    if rng.one_in(2) {
        return rng.pick(&known);
    }
    // One day more than the month has, in the quarter itself.
    let month = rng.between(quarter.month - 2, quarter.month);
    let day = days_in(month, quarter.year) + 1;
    month * 1_000_000 + rng.pick(&[0, day]) * 10_000 + quarter.year
}

/// Some date outside a quarter.
fn date_elsewhere(rng: &mut Rng, quarter: Quarter) -> u64 {
    loop {
        let far = rng.below(10_000);
        let year = rng.pick(&[quarter.year, quarter.year - 1, quarter.year + 1, far]) % 10_000;
        let other = Quarter::new(year, rng.pick(&[3, 6, 9, 12]));
        if other != quarter {
            return random_date(rng, other);
        }
    }
}

/// 47 to 51, and 65.
fn flags_and_dates(list: &mut List) {
    for column in [187, 190, 191, 282] {
        list.add(47, format!("no flag in {column}"), move |rng, draft| {
            if column == 191 && draft.quarter.month != 9 {
                return None;
            }
            let place = draft.choose(rng, b'E')?;
            let near = rng.pick(b"2 /:9AYN-");
            let any = printable(rng);
            let c = rng.pick(&[near, any]);
            if c == b'0' || c == b'1' {
                return None;
            }
            draft.lines[place].put(column, &[c]);
            Some(meant(47, place, column))
        });
    }
    for keeps_date in [false, true] {
        list.add(65, "not final in the current quarter", move |rng, draft| {
            if !draft.quarter.is_current(draft.held) {
                return None;
            }
            let place = draft.choose(rng, b'E')?;
            draft.lines[place].put(282, b"0");
            if !keeps_date {
                draft.lines[place].put(283, b"00000000");
            }
            Some(meant(65, place, 282))
        });
    }
    type DateOf = fn(&mut Rng, Quarter) -> u64;
    let some_date: DateOf = |rng, quarter| {
        let near = random_date(rng, quarter);
        rng.pick(&[near, 1, 10_000_000, 99_999_999])
    };
    let rows: [(u8, &[u8; 1], DateOf); 4] = [
        (48, b"1", no_date),
        (49, b"1", date_elsewhere),
        (50, b"0", some_date),
        (51, b"1", |_, _| 0),
    ];
    for (number, mark, date) in rows {
        list.add(number, "cease date", move |rng, draft| {
            // In the current quarter a 0 in 282 is told first.
            if mark == b"0" && draft.quarter.is_current(draft.held) {
                return None;
            }
            let place = draft.choose(rng, b'E')?;
            let date = date(rng, draft.quarter);
            draft.lines[place].put(282, mark);
            draft.lines[place].put_number(283, 290, date);
            Some(meant(number, place, 283))
        });
    }
}

/// 52 to 54.
fn employees(list: &mut List) {
    list.in_line(52, b'S', "identity number", |rng, line| {
        let with_666 = 666_000_000 + rng.below(1_000_000);
        let with_9 = no_itin(rng);
        let id = rng.pick(&[with_666, with_9, with_9, with_9, 666_000_000, 666_999_999]);
        line.put_number(2, 10, id);
        Some(2)
    });
    list.add(53, "repeated identity number", |rng, draft| {
        let place = draft.choose(rng, b'S')?;
        // The S records above it under the same E.
        let above = (0..place).rev().take_while(|p| draft.is(*p, b'S'));
        let ids: Vec<u64> = above.map(|p| draft.lines[p].value(2, 10)).collect();
        let ids: Vec<u64> = ids.into_iter().filter(|id| *id != 0).collect();
        if ids.is_empty() {
            draft.focus = None;
            return None;
        }
        draft.lines[place].put_number(2, 10, rng.pick(&ids));
        Some(meant(53, place, 2))
    });
    for (first, last) in [(11, 30), (31, 42)] {
        list.in_line(54, b'S', format!("bad character in name {first}-{last}"), {
            move |rng, line| {
                let column = rng.end_or_between(first, last);
                loop {
                    let likely = rng.pick(b"0123456789.,@[`{_&");
                    let any = printable(rng);
                    let c = rng.pick(&[likely, any]);
                    if !c.is_ascii_alphabetic() && !b" -'".contains(&c) {
                        line.put(column, &[c]);
                        return Some(column);
                    }
                }
            }
        });
    }
}

/// Another number of so many digits, often a near one.
pub fn another(rng: &mut Rng, own: u64, width: u32) -> Option<u64> {
    let bound = 10u64.pow(width);
    let far = rng.below(bound);
    let high = 1u64 << rng.between(1, 49);
    let other = rng.pick(&[own + 1, own.wrapping_sub(1), 0, bound - 1, far, own + high]);
    (other != own && other < bound).then_some(other)
}

/// A total that is not the one counted or added up.
fn wrong_total(list: &mut List, number: u8, letter: u8, first: usize, last: usize) {
    list.in_line(number, letter, format!("wrong {first}-{last}"), {
        move |rng, line| {
            let width = (last + 1 - first) as u32;
            let other = another(rng, line.value(first, last), width)?;
            line.put_number(first, last, other);
            Some(first)
        }
    });
}

/// 55 to 60.
fn totals(list: &mut List) {
    wrong_total(list, 55, b'T', 2, 8);
    wrong_total(list, 57, b'T', 27, 40);
    wrong_total(list, 58, b'F', 2, 11);
    wrong_total(list, 59, b'F', 12, 21);
    wrong_total(list, 60, b'F', 41, 55);
    list.add(56, "no S though E says 1", |rng, draft| {
        let place = draft.choose(rng, b'E')?;
        while draft.is(place + 1, b'S') {
            draft.lines.remove(place + 1);
        }
        if !draft.is(place + 1, b'T') {
            return None;
        }
        draft.lines[place].put(190, b"1");
        draft.total();
        draft.focus = Some(place + 1);
        Some(meant(56, place + 1, 2))
    });
}

/// 70.
fn headers(list: &mut List) {
    for (name, change) in HEADER_CHANGES {
        list.add(70, format!("header: {name}"), move |rng, draft| {
            if draft.header.len() != 7 {
                return None;
            }
            change(rng, &mut draft.header);
            Some(Refusal::new(70, 0, 0))
        });
    }
}

type HeaderChange = fn(&mut Rng, &mut Vec<u8>);

/// Ways to make a header of seven bytes one that is none; it is the same in all formats.
pub const HEADER_CHANGES: [(&str, HeaderChange); 6] = [
    ("year", |rng, header| {
        let any = rng.below(2025);
        let year = rng.pick(&[0, 1, 1999, 2024, 2024, any]);
        put_number(header, 1, 4, year);
    }),
    ("month", |rng, header| {
        let month = rng.pick(&NO_PERIODS);
        put(header, 5, month);
    }),
    ("no digit", |rng, header| {
        let column = rng.column(1, 6);
        put(header, column, &[not_digit(rng)]);
    }),
    ("other end", |rng, header| {
        let end: &[u8] = rng.pick(&[b"\r", b"\r\n", b" \n", b"", b"\0"]);
        header.truncate(6);
        header.extend_from_slice(end);
    }),
    ("length", |rng, header| {
        let longer: &[u8] = rng.pick(&[b"0", b" ", b"+", b"\n", b"\xEF\xBB\xBF"]);
        match rng.below(3) {
            0 => drop(header.remove(rng.index(6))),
            1 => drop(header.splice(0..0, longer.iter().copied())),
            _ => drop(header.splice(6..6, *b"0")),
        }
    }),
    ("missing", |_, header| header.clear()),
];

#[cfg(test)]
mod tests {
    use super::*;
    use crate::ack::outcome;
    use crate::layout::fields_of;
    use crate::meaning::Outcome;
    use std::collections::HashSet;

    /// Each break, many times over: the meaning gives the refusal that was meant.
    #[test]
    fn each_break_is_refused_as_meant() {
        for (which, one) in all().iter().enumerate() {
            let (mut made, mut tried) = (0, 0);
            while made < 60 {
                let mut rng = Rng::of(7, which as u64, tried);
                tried += 1;
                assert!(tried < 6_000, "{} finds nothing to break", one.name);
                let mut draft = valid(&mut rng, SMALL);
                let Some(refusal) = one.apply(&mut rng, &mut draft) else {
                    continue;
                };
                made += 1;
                let found = outcome(&draft.input());
                assert_eq!(found, Outcome::Refused(refusal), "{}", one.name);
            }
        }
    }

    /// Where a refusal stands in the stated order: "Lines in file order. Within a line: length,
    /// end, characters, letter, place, then fields by first column, each field's rules as above".
    fn rank(draft: &Draft, refusal: Refusal) -> (u64, u8, usize, u8, usize) {
        let step = match refusal.number {
            70 => 0,
            number @ 1..=4 => number,
            10..=20 => 5,
            30..=60 | 64 | 65 => 6,
            _ => 7,
        };
        let letter = match draft.lines.get(refusal.line.wrapping_sub(1) as usize) {
            Some(line) => line.letter(),
            None => 0,
        };
        let column = refusal.column as usize;
        let mut fields = fields_of(letter).iter();
        let field = fields.find(|f| f.first <= column && column <= f.last);
        let first = field.map_or(1, |f| f.first);
        // "64, right after 44 and before 45"; "65 [...] after 47 there"
        let number = match refusal.number {
            64 => 2 * 44 + 1,
            65 => 2 * 47 + 1,
            number => 2 * number,
        };
        (refusal.line, step, first, number, column)
    }

    /// The places and columns where two drafts of as many lines differ; none if they have not.
    fn changed(old: &Draft, new: &Draft) -> Option<HashSet<(usize, usize)>> {
        if old.lines.len() != new.lines.len() {
            return None;
        }
        let mut all = HashSet::new();
        for (place, (old, new)) in old.lines.iter().zip(&new.lines).enumerate() {
            let length = old.text.len().max(new.text.len());
            all.extend((0..length).filter_map(|column| {
                (old.text.get(column) != new.text.get(column)).then_some((place, column))
            }));
        }
        Some(all)
    }

    /// A draft broken twice, by breaks that leave each other alone, and the two refusals meant.
    fn broken_twice(breaks: &[Break], k: u64) -> Option<(Draft, Draft, [Refusal; 2])> {
        let mut rng = Rng::of(9, 0, k);
        let whole = valid(&mut rng, SMALL);
        let mut once = whole.clone();
        let (one, other) = (rng.index(breaks.len()), rng.index(breaks.len()));
        let first = breaks[one].apply(&mut rng, &mut once)?;
        let mut twice = once.clone();
        let second = breaks[other].apply(&mut rng, &mut twice)?;
        // The first may put a line in; the second must not, nor touch what the first changed.
        let later = changed(&once, &twice)?;
        let earlier = changed(&whole, &once).unwrap_or_default();
        if !earlier.is_disjoint(&later) || twice.lines.is_empty() {
            return None;
        }
        // An end too many and one too few mend each other.
        if first.number == 1 && [1, 70].contains(&second.number) {
            return None;
        }
        // A character put into a blank field mends it.
        let (left, right) = (rank(&once, first), rank(&once, second));
        if first.number == 32 && (left.0, left.2) == (right.0, right.2) {
            return None;
        }
        // Digits put into one field twice make a third number.
        if first.number.min(second.number) >= 38 && (left.0, left.2) == (right.0, right.2) {
            return None;
        }
        Some((once, twice, [first, second]))
    }

    /// Of two breaks, the one that comes first in the stated order is told.
    #[test]
    fn pairs_are_refused_in_order() {
        let breaks = all();
        let (mut looked_at, mut in_one_line) = (0, 0);
        for k in 0..60_000 {
            let Some((once, twice, refusals)) = broken_twice(&breaks, k) else {
                continue;
            };
            let wanted = refusals.into_iter().min_by_key(|one| rank(&once, *one));
            let found = outcome(&twice.input());
            assert_eq!(Some(found), wanted.map(Outcome::Refused), "pair {k}");
            looked_at += 1;
            in_one_line += u64::from(refusals[0].line == refusals[1].line);
        }
        assert!(looked_at > 20_000, "{looked_at}");
        assert!(in_one_line > 5_000, "{in_one_line}");
    }

    #[test]
    fn every_reason_has_a_break() {
        let numbers: HashSet<u8> = all().iter().map(|one| one.number).collect();
        let wanted = (1..=8).chain(10..=20).chain(30..=60).chain([64, 65, 70]);
        assert!(wanted.into_iter().all(|number| numbers.contains(&number)));
    }
}
