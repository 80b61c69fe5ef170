//! Drafts of wage files: valid ones of many shapes, which other modules then break.
//!
//! The columns here are typed from document 000 a second time, not taken from `layout`.

use crate::calendar::{days_in, Quarter};
use crate::layout::{LENGTH, PROVINCES, STATES};
use crate::rng::Rng;

pub const LF: &[u8] = b"\n";
pub const CR: &[u8] = b"\r";
pub const CRLF: &[u8] = b"\r\n";
pub const ENDS: [&[u8]; 3] = [LF, CR, CRLF];

/// The greatest wages that 14 columns hold.
pub const MOST_WAGES: u64 = 99_999_999_999_999;

/// A line of a draft: its text and its end.
#[derive(Clone, Debug, PartialEq, Eq)]
pub struct Line {
    pub text: Vec<u8>,
    pub end: Vec<u8>,
}

impl Line {
    pub fn new(text: Vec<u8>, end: &[u8]) -> Line {
        Line {
            text,
            end: end.to_vec(),
        }
    }

    /// The record letter as a capital; 0 if the line is empty.
    pub fn letter(&self) -> u8 {
        self.text.first().map_or(0, u8::to_ascii_uppercase)
    }

    pub fn put(&mut self, column: usize, text: &[u8]) {
        put(&mut self.text, column, text);
    }

    pub fn put_number(&mut self, first: usize, last: usize, value: u64) {
        put_number(&mut self.text, first, last, value);
    }

    /// The characters of some columns, as capitals.
    pub fn columns(&self, first: usize, last: usize) -> Vec<u8> {
        self.text[first - 1..last].to_ascii_uppercase()
    }

    /// The value of columns that hold digits; other characters count as 0.
    pub fn value(&self, first: usize, last: usize) -> u64 {
        self.columns(first, last).iter().fold(0, |sum, c| {
            sum * 10 + u64::from(if c.is_ascii_digit() { c - b'0' } else { 0 })
        })
    }
}

/// An input being made: a header and lines.
#[derive(Clone, Debug, PartialEq, Eq)]
pub struct Draft {
    pub header: Vec<u8>,
    pub held: Quarter,
    /// A's quarter.
    pub quarter: Quarter,
    pub lines: Vec<Line>,
    /// The line last worked on; a second break takes it if it can.
    pub focus: Option<usize>,
}

impl Draft {
    pub fn new(held: Quarter, quarter: Quarter) -> Draft {
        Draft {
            header: header(held),
            held,
            quarter,
            lines: Vec::new(),
            focus: None,
        }
    }

    pub fn file(&self) -> Vec<u8> {
        let parts = self.lines.iter().flat_map(|l| [&l.text[..], &l.end[..]]);
        parts.flatten().copied().collect()
    }

    pub fn input(&self) -> Vec<u8> {
        [&self.header[..], &self.file()[..]].concat()
    }

    /// The places of all lines with this letter.
    pub fn places(&self, letter: u8) -> Vec<usize> {
        (0..self.lines.len())
            .filter(|place| self.is(*place, letter))
            .collect()
    }

    /// Whether there is a line with this letter, of full length, at this place.
    pub fn is(&self, place: usize, letter: u8) -> bool {
        self.lines
            .get(place)
            .is_some_and(|l| l.letter() == letter && l.text.len() == LENGTH)
    }

    /// A line with this letter: the one in focus, if it has it.
    pub fn choose(&mut self, rng: &mut Rng, letter: u8) -> Option<usize> {
        let place = match self.focus {
            Some(place) if self.is(place, letter) => place,
            _ => {
                let places = self.places(letter);
                if places.is_empty() {
                    return None;
                }
                rng.pick(&places)
            }
        };
        self.focus = Some(place);
        Some(place)
    }

    pub fn push(&mut self, text: Vec<u8>) {
        self.lines.push(Line::new(text, LF));
    }

    /// Puts a line in and the focus on it; it takes the end of the line before.
    pub fn insert(&mut self, place: usize, text: Vec<u8>) {
        let near = place.saturating_sub(1);
        let end = self.lines.get(near).map_or(LF.to_vec(), |l| l.end.clone());
        self.lines.insert(place, Line { text, end });
        self.focus = Some(place);
    }

    /// Writes the totals of all T and F records anew from the S records before them.
    pub fn total(&mut self) {
        let (mut s, mut e, mut cents) = (0, 0, 0);
        let (mut s_in_file, mut cents_in_file) = (0, 0);
        for line in self.lines.iter_mut().filter(|l| l.text.len() == LENGTH) {
            match line.letter() {
                b'E' => {
                    e += 1;
                    (s, cents) = (0, 0);
                }
                b'S' => {
                    let wages = line.value(64, 77);
                    (s, cents) = (s + 1, cents + wages);
                    (s_in_file, cents_in_file) = (s_in_file + 1, cents_in_file + wages);
                }
                b'T' => {
                    line.put_number(2, 8, s);
                    line.put_number(27, 40, cents);
                }
                b'F' => {
                    line.put_number(2, 11, s_in_file);
                    line.put_number(12, 21, e);
                    line.put_number(41, 55, cents_in_file);
                }
                _ => {}
            }
        }
    }

    /// Gives every line an end of one kind, or each its own.
    pub fn set_ends(&mut self, rng: &mut Rng) {
        let kind = rng.index(4);
        for line in &mut self.lines {
            let end = ENDS.get(kind).copied().unwrap_or_else(|| rng.pick(&ENDS));
            line.end = end.to_vec();
        }
    }

    /// Turns some capitals into small letters, which mean the same.
    pub fn use_small_letters(&mut self, rng: &mut Rng) {
        let rate = rng.pick(&[1, 2, 10]);
        for line in &mut self.lines {
            for c in &mut line.text {
                if rng.one_in(rate) {
                    *c = c.to_ascii_lowercase();
                }
            }
        }
    }
}

pub fn header(held: Quarter) -> Vec<u8> {
    format!("{:04}{:02}\n", held.year, held.month).into_bytes()
}

/// Writes text from a column on.
pub fn put(line: &mut [u8], column: usize, text: &[u8]) {
    line[column - 1..column - 1 + text.len()].copy_from_slice(text);
}

/// Writes a number right justified and zero filled, cut to the columns from the left.
pub fn put_number(line: &mut [u8], first: usize, last: usize, value: u64) {
    put(line, first, &digits(value, last + 1 - first));
}

/// So many digits of a number, the lowest last.
pub fn digits(value: u64, width: usize) -> Vec<u8> {
    let text = format!("{value:020}").into_bytes();
    text[20 - width..].to_vec()
}

fn blank_record(letter: u8) -> Vec<u8> {
    let mut line = vec![b' '; LENGTH];
    line[0] = letter;
    line
}

/// An address as it stands in a record: code, ZIP code, extension.
pub struct Address {
    pub code: [u8; 2],
    pub zip: [u8; 5],
    pub extension: [u8; 5],
}

pub const AUGUSTA: Address = Address {
    code: *b"ME",
    zip: *b"04332",
    extension: *b"-1061",
};

pub const OTTAWA: Address = Address {
    code: *b"ON",
    zip: *b"K1A 0",
    extension: *b"B1   ",
};

/// A tidy A record.
pub fn record_a(quarter: Quarter, fein: u64, address: &Address) -> Vec<u8> {
    let mut a = blank_record(b'A');
    put_number(&mut a, 2, 5, quarter.year);
    put_number(&mut a, 6, 14, fein);
    put(&mut a, 15, b"PFML");
    put_number(&mut a, 19, 20, quarter.month);
    put(&mut a, 24, b"NORTHERN PAYROLL LLC");
    put(&mut a, 74, b"12 WATER STREET");
    put(&mut a, 114, b"AUGUSTA");
    put(&mut a, 139, &address.code);
    put(&mut a, 154, &address.zip);
    put(&mut a, 159, &address.extension);
    put(&mut a, 164, b"JO SMITH");
    put(&mut a, 194, b"2075551212");
    a
}

/// A tidy E record that is no final return.
pub fn record_e(quarter: Quarter, fein: u64, s_follow: bool, address: &Address) -> Vec<u8> {
    let mut e = blank_record(b'E');
    put_number(&mut e, 2, 5, quarter.year);
    put_number(&mut e, 6, 14, fein);
    put(&mut e, 24, b"ORCHARD HILL FARM");
    put(&mut e, 74, b"4 RIDGE ROAD");
    put(&mut e, 114, b"BANGOR");
    put(&mut e, 139, &address.code);
    put(&mut e, 149, &address.extension);
    put(&mut e, 154, &address.zip);
    put(&mut e, 167, b"PFML");
    put(&mut e, 187, b"0");
    put_number(&mut e, 188, 189, quarter.month);
    put(&mut e, 190, if s_follow { b"1" } else { b"0" });
    put(&mut e, 191, b"0");
    put(&mut e, 201, b"ANN ROY");
    put(&mut e, 231, b"ANN@ORCHARD.EXAMPLE");
    put(&mut e, 261, b"2075550100");
    put(&mut e, 282, b"0");
    put(&mut e, 283, b"00000000");
    e
}

/// A tidy S record.
pub fn record_s(quarter: Quarter, fein: u64, id: u64, wages: u64) -> Vec<u8> {
    let mut s = blank_record(b'S');
    put_number(&mut s, 2, 10, id);
    put(&mut s, 11, b"O'NEIL-ROY");
    put(&mut s, 31, b"ANNE");
    put_number(&mut s, 46, 47, quarter.month);
    put_number(&mut s, 48, 51, quarter.year);
    put_number(&mut s, 64, 77, wages);
    put(&mut s, 143, b"PFML");
    put_number(&mut s, 147, 155, fein);
    s
}

pub fn record_t(fein: u64, s: u64, cents: u64) -> Vec<u8> {
    let mut t = blank_record(b'T');
    put_number(&mut t, 2, 8, s);
    put(&mut t, 9, b"PFML");
    put_number(&mut t, 13, 21, fein);
    put_number(&mut t, 27, 40, cents);
    t
}

pub fn record_f(s: u64, e: u64, cents: u64) -> Vec<u8> {
    let mut f = blank_record(b'F');
    put_number(&mut f, 2, 11, s);
    put_number(&mut f, 12, 21, e);
    put(&mut f, 22, b"PFML");
    put_number(&mut f, 41, 55, cents);
    f
}

/// Makes an E record a final return that ceased on this date, MMDDYYYY.
pub fn put_final(e: &mut [u8], date: u64) {
    put(e, 282, b"1");
    put_number(e, 283, 290, date);
}

/// An employer of a tidy file: FEIN, and identity number and wages of each employee.
pub struct Employer {
    pub fein: u64,
    pub employees: Vec<(u64, u64)>,
}

/// A tidy file of these employers; one without employees is a zero return. In the current quarter
/// each is a final return, that ceased on the first of the quarter's last month.
pub fn tidy(held: Quarter, quarter: Quarter, employers: &[Employer]) -> Draft {
    let mut draft = Draft::new(held, quarter);
    draft.push(record_a(quarter, 123_456_789, &AUGUSTA));
    for employer in employers {
        let s_follow = !employer.employees.is_empty();
        let mut e = record_e(quarter, employer.fein, s_follow, &AUGUSTA);
        if quarter.is_current(held) {
            put_final(&mut e, quarter.month * 1_000_000 + 10_000 + quarter.year);
        }
        draft.push(e);
        for (id, wages) in &employer.employees {
            draft.push(record_s(quarter, employer.fein, *id, *wages));
        }
        draft.push(record_t(employer.fein, 0, 0));
    }
    draft.push(record_f(0, 0, 0));
    draft.total();
    draft
}

/// A tidy file of one employer with two employees, the paper's example.
pub fn example(held: Quarter, quarter: Quarter) -> Draft {
    let employees = vec![(1_223_334, 123_456), (4_556_667, 44)];
    let fein = 12_345_678;
    tidy(held, quarter, &[Employer { fein, employees }])
}

/// A tidy file of one zero return: four lines.
pub fn zero_return(held: Quarter, quarter: Quarter) -> Draft {
    let employees = Vec::new();
    let fein = 12_345_678;
    tidy(held, quarter, &[Employer { fein, employees }])
}

// Random parts.

/// Some character of hex 20 to 7E.
pub fn printable(rng: &mut Rng) -> u8 {
    rng.between(0x20, 0x7E) as u8
}

/// Some character of hex 21 to 7E.
pub fn not_blank(rng: &mut Rng) -> u8 {
    rng.between(0x21, 0x7E) as u8
}

/// A character that a number may not hold, most often one that looks like a number.
pub fn not_digit(rng: &mut Rng) -> u8 {
    if rng.one_in(2) {
        return rng.pick(b" -+.,/:OolIEe~@;$");
    }
    loop {
        let c = printable(rng);
        if !c.is_ascii_digit() {
            return c;
        }
    }
}

/// Text that begins in the first column of a field of this width.
pub fn random_text(rng: &mut Rng, width: usize) -> Vec<u8> {
    let length = match rng.below(8) {
        0 => 1,
        1 => width,
        _ => rng.column(1, width),
    };
    let plain = !rng.one_in(4);
    let mut text = vec![b' '; width];
    for c in &mut text[..length] {
        *c = match plain {
            true => rng.pick(b"ABCDEFGHIJKLMNOPQRSTUVWXYZ ABCDE0123456789-'.,&"),
            false => printable(rng),
        };
    }
    if text[0] == b' ' {
        text[0] = not_blank(rng);
    }
    text
}

/// A name that S may hold.
pub fn random_name(rng: &mut Rng, width: usize) -> Vec<u8> {
    let length = match rng.below(8) {
        0 => width,
        _ => rng.column(1, width),
    };
    let mut text = vec![b' '; width];
    for c in &mut text[..length] {
        *c = rng.pick(b"ABCDEFGHIJKLMNOPQRSTUVWXYZ-' ABCDEFGHIJKLMNOPQRSTUVWXYZ");
    }
    if text[0] == b' ' {
        text[0] = rng.pick(b"AMZ-'");
    }
    text
}

fn letter(rng: &mut Rng) -> u8 {
    rng.between(b'A'.into(), b'Z'.into()) as u8
}

fn digit(rng: &mut Rng) -> u8 {
    rng.between(b'0'.into(), b'9'.into()) as u8
}

pub fn random_digits(rng: &mut Rng, width: usize) -> Vec<u8> {
    (0..width).map(|_| digit(rng)).collect()
}

/// An address in a state or, at times, a province.
pub fn random_address(rng: &mut Rng) -> Address {
    if rng.one_in(4) {
        return address_in_province(rng);
    }
    address_in_state(rng)
}

pub fn address_in_state(rng: &mut Rng) -> Address {
    let d: Vec<u8> = random_digits(rng, 9);
    let with_extension = rng.one_in(2);
    Address {
        code: *rng.pick(&STATES),
        zip: [d[0], d[1], d[2], d[3], d[4]],
        extension: match with_extension {
            true => [b'-', d[5], d[6], d[7], d[8]],
            false => *b"     ",
        },
    }
}

pub fn address_in_province(rng: &mut Rng) -> Address {
    let (l, d) = (
        [letter(rng), letter(rng), letter(rng)],
        random_digits(rng, 3),
    );
    Address {
        code: *rng.pick(&PROVINCES),
        zip: [l[0], d[0], l[1], b' ', d[1]],
        extension: [l[2], d[2], b' ', b' ', b' '],
    }
}

/// A FEIN that does not begin with 69 and is not nine zeros.
pub fn random_fein(rng: &mut Rng) -> u64 {
    loop {
        let fein = rng.below(1_000_000_000);
        if fein / 10_000_000 != 69 && fein != 0 {
            return fein;
        }
    }
}

/// An identity number, not zero, that may be filed: an ITIN, or one that begins neither with 666 nor
/// with 9.
pub fn random_id(rng: &mut Rng) -> u64 {
    loop {
        let id = match rng.below(8) {
            0 => rng.between(1, 99),
            1 => rng.between(665_000_000, 667_999_999),
            2 | 3 => random_itin(rng),
            _ => rng.between(1, 899_999_999),
        };
        if id / 1_000_000 != 666 {
            return id;
        }
    }
}

/// A number that begins with 9, as the IRS issues them.
pub fn random_itin(rng: &mut Rng) -> u64 {
    behind_nine(rng, &[(50, 65), (70, 88), (90, 92), (94, 99)])
}

/// A number that begins with 9, as the IRS issues none.
pub fn no_itin(rng: &mut Rng) -> u64 {
    behind_nine(rng, &[(0, 49), (66, 69), (89, 89), (93, 93)])
}

/// Its fourth and fifth digits are of one of the ranges, most often the first or last there.
fn behind_nine(rng: &mut Rng, ranges: &[(usize, usize)]) -> u64 {
    let (first, last) = rng.pick(ranges);
    let front = rng.between(900, 999);
    let middle = rng.end_or_between(first, last) as u64;
    (front * 100 + middle) * 10_000 + rng.below(10_000)
}

pub fn random_wages(rng: &mut Rng) -> u64 {
    match rng.below(8) {
        0 => 0,
        1 => rng.below(100),
        2 => rng.below(1_000_000_000_000),
        _ => rng.below(10_000_000),
    }
}

pub fn random_held(rng: &mut Rng) -> Quarter {
    let year = match rng.below(6) {
        0 => 2025,
        1 => 9999,
        2 => rng.between(2025, 9999),
        _ => rng.between(2025, 2030),
    };
    Quarter::new(year, rng.pick(&[3, 6, 9, 12]))
}

/// A quarter from the first of 2025 to the one held, or the current one.
pub fn random_quarter(rng: &mut Rng, held: Quarter) -> Quarter {
    if rng.one_in(5) {
        return held.current_after().unwrap_or(held);
    }
    if !rng.one_in(3) {
        return held;
    }
    let low = held.year.saturating_sub(2).max(2025);
    loop {
        let quarter = Quarter::new(rng.between(low, held.year), rng.pick(&[3, 6, 9, 12]));
        if quarter <= held {
            return quarter;
        }
    }
}

/// A day of a quarter as MMDDYYYY.
pub fn random_date(rng: &mut Rng, quarter: Quarter) -> u64 {
    let month = rng.between(quarter.month - 2, quarter.month);
    let days = days_in(month, quarter.year);
    let day = match rng.below(4) {
        0 => 1,
        1 => days,
        _ => rng.between(1, days),
    };
    month * 1_000_000 + day * 10_000 + quarter.year
}

pub fn random_record_a(rng: &mut Rng, quarter: Quarter) -> Vec<u8> {
    let fein = random_fein(rng);
    let address = random_address(rng);
    let mut a = record_a(quarter, fein, &address);
    for (first, last) in [(24, 73), (74, 113), (114, 138), (164, 193)] {
        put(&mut a, first, &random_text(rng, last + 1 - first));
    }
    put(&mut a, 194, &random_digits(rng, 10));
    if rng.one_in(2) {
        put(&mut a, 204, &random_text(rng, 4));
    }
    a
}

pub fn random_record_e(rng: &mut Rng, quarter: Quarter, fein: u64, s_follow: bool) -> Vec<u8> {
    let address = random_address(rng);
    let mut e = record_e(quarter, fein, s_follow, &address);
    for (first, last) in [(24, 73), (74, 113), (114, 138), (201, 230), (231, 260)] {
        put(&mut e, first, &random_text(rng, last + 1 - first));
    }
    if rng.one_in(2) {
        put(&mut e, 173, &random_digits(rng, 10));
    }
    put(&mut e, 187, &[rng.pick(b"01")]);
    let at_191 = match quarter.month {
        9 => rng.pick(b"01"),
        _ => printable(rng),
    };
    put(&mut e, 191, &[at_191]);
    put(&mut e, 261, &random_digits(rng, 10));
    if rng.one_in(2) {
        put(&mut e, 271, &random_text(rng, 4));
    }
    if rng.one_in(3) {
        put_final(&mut e, random_date(rng, quarter));
    }
    e
}

/// An E record of a file that may be of the current quarter, and then is a final return.
pub fn random_record_e_under(
    rng: &mut Rng,
    (held, quarter): (Quarter, Quarter),
    fein: u64,
    s_follow: bool,
) -> Vec<u8> {
    let mut e = random_record_e(rng, quarter, fein, s_follow);
    if quarter.is_current(held) {
        put_final(&mut e, random_date(rng, quarter));
    }
    e
}

pub fn random_record_s(rng: &mut Rng, quarter: Quarter, fein: u64, id: u64) -> Vec<u8> {
    let mut s = record_s(quarter, fein, id, random_wages(rng));
    put(&mut s, 11, &random_name(rng, 20));
    put(&mut s, 31, &random_name(rng, 12));
    s
}

/// The size of a random valid file.
#[derive(Clone, Copy)]
pub struct Size {
    pub employers: u64,
    pub employees: u64,
}

pub const SMALL: Size = Size {
    employers: 3,
    employees: 3,
};

/// Identity numbers for one employer: all different but for zeros.
fn random_ids(rng: &mut Rng, count: u64, others: &[u64]) -> Vec<u64> {
    let mut ids: Vec<u64> = Vec::new();
    while (ids.len() as u64) < count {
        let id = match rng.below(8) {
            0 => 0,
            1 if !others.is_empty() => rng.pick(others),
            _ => random_id(rng),
        };
        if id == 0 || !ids.contains(&id) {
            ids.push(id);
        }
    }
    ids
}

/// FEINs that are all different.
fn random_feins(rng: &mut Rng, count: u64) -> Vec<u64> {
    let mut feins: Vec<u64> = Vec::new();
    while (feins.len() as u64) < count {
        let fein = random_fein(rng);
        if !feins.contains(&fein) {
            feins.push(fein);
        }
    }
    feins
}

/// A random file that breaks no edit. Some employees work for two employers.
pub fn valid(rng: &mut Rng, size: Size) -> Draft {
    let held = random_held(rng);
    let quarter = random_quarter(rng, held);
    valid_in(rng, held, quarter, size)
}

pub fn valid_in(rng: &mut Rng, held: Quarter, quarter: Quarter, size: Size) -> Draft {
    let mut draft = Draft::new(held, quarter);
    let a = random_record_a(rng, quarter);
    draft.push(a);
    let count = rng.between(1, size.employers);
    let mut seen: Vec<u64> = Vec::new();
    for fein in random_feins(rng, count) {
        let s_follow = !rng.one_in(4);
        draft.push(random_record_e_under(rng, (held, quarter), fein, s_follow));
        let employees = if s_follow {
            rng.between(1, size.employees)
        } else {
            0
        };
        for id in random_ids(rng, employees, &seen) {
            draft.push(random_record_s(rng, quarter, fein, id));
            seen.push(id);
        }
        draft.push(record_t(fein, 0, 0));
    }
    draft.push(record_f(0, 0, 0));
    draft.total();
    draft.set_ends(rng);
    if rng.one_in(3) {
        draft.use_small_letters(rng);
    }
    draft
}
