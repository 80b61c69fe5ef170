//! Writes a header and a large wage file that breaks no edit:
//!
//!     generate EMPLOYERS EMPLOYEES --ids ascending|random [--end lf|crlf] [--quarter YYYYMM] [--seed N]
//!
//! EMPLOYEES is for each employer. The columns are those of the tables of source document 000.

use std::collections::HashSet;
use std::fs::File;
use std::io::{self, BufWriter, Write};
use std::mem::ManuallyDrop;
use std::os::fd::FromRawFd;
use std::process::ExitCode;

const USAGE: &str = "usage: generate EMPLOYERS EMPLOYEES --ids ascending|random \
                     [--end lf|crlf] [--quarter YYYYMM] [--seed N]";

/// Files that are written in large pieces are kept in large pieces, and are read as fast as files that come from a disk.
const WRITE: usize = 1 << 20;

const LENGTH: usize = 290;
type Record = [u8; LENGTH];

struct Options {
    employers: usize,
    employees: usize,
    ascending: bool,
    end: &'static [u8],
    year: u64,
    month: u64,
    seed: u64,
}

fn number(word: &str) -> Result<u64, String> {
    word.parse().map_err(|_| format!("{word} is no number"))
}

fn options(words: &[String]) -> Result<Options, String> {
    let [employers, employees, flags @ ..] = words else {
        return Err(USAGE.to_string());
    };
    let mut options = Options {
        employers: number(employers)? as usize,
        employees: number(employees)? as usize,
        ascending: true,
        end: b"\n",
        year: 2026,
        month: 6,
        seed: 1,
    };
    for pair in flags.chunks(2) {
        set(&mut options, pair)?;
    }
    Ok(options)
}

fn set(options: &mut Options, pair: &[String]) -> Result<(), String> {
    let [flag, value] = pair else {
        return Err(USAGE.to_string());
    };
    match (flag.as_str(), value.as_str()) {
        ("--ids", "ascending") => options.ascending = true,
        ("--ids", "random") => options.ascending = false,
        ("--end", "lf") => options.end = b"\n",
        ("--end", "crlf") => options.end = b"\r\n",
        ("--quarter", quarter) => {
            options.year = number(quarter)? / 100;
            options.month = number(quarter)? % 100;
        }
        ("--seed", seed) => options.seed = number(seed)?,
        _ => return Err(USAGE.to_string()),
    }
    Ok(())
}

/// splitmix64, so that a seed gives the same file everywhere.
struct Rng(u64);

impl Rng {
    fn next(&mut self) -> u64 {
        self.0 = self.0.wrapping_add(0x9E37_79B9_7F4A_7C15);
        let mut z = self.0;
        z = (z ^ (z >> 30)).wrapping_mul(0xBF58_476D_1CE4_E5B9);
        z = (z ^ (z >> 27)).wrapping_mul(0x94D0_49BB_1331_11EB);
        z ^ (z >> 31)
    }

    fn between(&mut self, low: u64, high: u64) -> u64 {
        low + self.next() % (high - low + 1)
    }

    fn one_in(&mut self, times: u64) -> bool {
        self.next() % times == 0
    }

    fn pick<T: Copy>(&mut self, from: &[T]) -> T {
        from[(self.next() % from.len() as u64) as usize]
    }
}

const LAST_NAMES: [&str; 48] = [
    "SMITH",
    "JOHNSON",
    "BROWN",
    "MARTIN",
    "WHITE",
    "CLARK",
    "LEWIS",
    "YOUNG",
    "HALL",
    "KING",
    "ROY",
    "LEE",
    "OUELLETTE",
    "PELLETIER",
    "MICHAUD",
    "CYR",
    "THIBODEAU",
    "BOUCHARD",
    "GAGNON",
    "LEVESQUE",
    "CARON",
    "NADEAU",
    "MORIN",
    "PARADIS",
    "BERUBE",
    "DUBOIS",
    "LAVOIE",
    "COTE",
    "GRANT",
    "LIBBY",
    "MERRILL",
    "HASKELL",
    "SPRAGUE",
    "WENTWORTH",
    "CUNNINGHAM",
    "ABDULLAHI",
    "MOHAMED",
    "NGUYEN",
    "RODRIGUEZ",
    "HERNANDEZ",
    "VAN BUREN",
    "ST PIERRE",
    "O'NEIL",
    "D'AMBOISE",
    "O'BRIEN-WHITE",
    "LEVESQUE-ROY",
    "MONTGOMERY-HOLLIS",
    "NG",
];

const FIRST_NAMES: [&str; 40] = [
    "ANNE",
    "JO",
    "MARY",
    "JAMES",
    "ROBERT",
    "JOHN",
    "PATRICIA",
    "JENNIFER",
    "LINDA",
    "DAVID",
    "ELIZABETH",
    "BARBARA",
    "RICHARD",
    "SUSAN",
    "JOSEPH",
    "JESSICA",
    "THOMAS",
    "SARAH",
    "CHRISTOPHER",
    "KAREN",
    "LISA",
    "NANCY",
    "MATTHEW",
    "BETTY",
    "MARGARET",
    "MARK",
    "SANDRA",
    "ASHLEY",
    "KIMBERLY",
    "EMILY",
    "DONNA",
    "MICHELLE",
    "CAROL",
    "AMANDA",
    "DOROTHY",
    "MELISSA",
    "AL",
    "MARY ANN",
    "JEAN-PAUL",
    "ALEXANDER",
];

const FIRMS: [&str; 12] = [
    "ORCHARD HILL FARM",
    "NORTHERN TIMBER CO",
    "BAY LOBSTER COOPERATIVE INC",
    "PINE STREET DENTAL PA",
    "KENNEBEC PAPER LLC",
    "COAST LINE HOTELS",
    "AROOSTOOK POTATO GROWERS ASSOCIATION",
    "DOWNEAST BLUEBERRY",
    "CASCO SHIPYARD INC",
    "MOUNT DESERT INN",
    "SACO MILLS",
    "FOREST LAKE SCHOOL",
];

const TOWNS: [&str; 8] = [
    "BANGOR",
    "AUGUSTA",
    "PORTLAND",
    "LEWISTON",
    "PRESQUE ISLE",
    "BAR HARBOR",
    "SACO",
    "OLD ORCHARD BEACH",
];

fn blank(letter: u8) -> Record {
    let mut record = [b' '; LENGTH];
    record[0] = letter;
    record
}

/// Writes text from a column on, counted from 1.
fn put(record: &mut Record, column: usize, text: &str) {
    record[column - 1..column - 1 + text.len()].copy_from_slice(text.as_bytes());
}

fn put_number(record: &mut Record, first: usize, last: usize, value: u64) {
    let width = last + 1 - first;
    put(record, first, &format!("{value:0width$}"));
}

fn transmitter(options: &Options) -> Record {
    let mut a = blank(b'A');
    put_number(&mut a, 2, 5, options.year);
    put_number(&mut a, 6, 14, 123_456_789);
    put(&mut a, 15, "PFML");
    put_number(&mut a, 19, 20, options.month);
    put(&mut a, 24, "NORTHERN PAYROLL LLC");
    put(&mut a, 74, "12 WATER STREET");
    put(&mut a, 114, "AUGUSTA");
    put(&mut a, 139, "ME");
    put(&mut a, 154, "04332");
    put(&mut a, 159, "-1061");
    put(&mut a, 164, "JO SMITH");
    put(&mut a, 194, "2075551212");
    a
}

fn employer(options: &Options, rng: &mut Rng, fein: u64) -> Record {
    let mut e = blank(b'E');
    put_number(&mut e, 2, 5, options.year);
    put_number(&mut e, 6, 14, fein);
    put(&mut e, 24, rng.pick(&FIRMS));
    put(&mut e, 74, &format!("{} RIDGE ROAD", rng.between(1, 2000)));
    put(&mut e, 114, rng.pick(&TOWNS));
    put(&mut e, 139, "ME");
    if rng.one_in(2) {
        put(&mut e, 149, &format!("-{:04}", rng.between(0, 9999)));
    }
    put_number(&mut e, 154, 158, rng.between(3901, 4992));
    put(&mut e, 167, "PFML");
    if !rng.one_in(3) {
        put_number(&mut e, 173, 182, rng.between(1, 9_999_999_999));
    }
    put(&mut e, 187, "0");
    put_number(&mut e, 188, 189, options.month);
    put(&mut e, 190, if options.employees > 0 { "1" } else { "0" });
    put(&mut e, 191, "1");
    put(
        &mut e,
        201,
        &format!("{} {}", rng.pick(&FIRST_NAMES), rng.pick(&LAST_NAMES)),
    );
    put(
        &mut e,
        231,
        &format!("PAYROLL{}@FIRM.EXAMPLE", rng.between(1, 9999)),
    );
    put_number(&mut e, 261, 270, 2_070_000_000 + rng.between(0, 9_999_999));
    if rng.one_in(3) {
        put_number(&mut e, 271, 273, rng.between(100, 999));
    }
    put(&mut e, 282, "0");
    put(&mut e, 283, "00000000");
    e
}

fn employee(options: &Options, rng: &mut Rng, fein: u64, id: u64, wages: u64) -> Record {
    let mut s = blank(b'S');
    put_number(&mut s, 2, 10, id);
    put(&mut s, 11, rng.pick(&LAST_NAMES));
    put(&mut s, 31, rng.pick(&FIRST_NAMES));
    put_number(&mut s, 46, 47, options.month);
    put_number(&mut s, 48, 51, options.year);
    put_number(&mut s, 64, 77, wages);
    put(&mut s, 143, "PFML");
    put_number(&mut s, 147, 155, fein);
    s
}

fn total(fein: u64, count: u64, cents: u64) -> Record {
    let mut t = blank(b'T');
    put_number(&mut t, 2, 8, count);
    put(&mut t, 9, "PFML");
    put_number(&mut t, 13, 21, fein);
    put_number(&mut t, 27, 40, cents);
    t
}

fn closing(employees: u64, employers: u64, cents: u64) -> Record {
    let mut f = blank(b'F');
    put_number(&mut f, 2, 11, employees);
    put_number(&mut f, 12, 21, employers);
    put(&mut f, 22, "PFML");
    put_number(&mut f, 41, 55, cents);
    f
}

/// Begins neither with 69 nor with nine zeros.
fn fein(rng: &mut Rng) -> u64 {
    loop {
        let fein = rng.between(10_000_000, 999_999_999);
        if fein / 10_000_000 != 69 {
            return fein;
        }
    }
}

/// One in fifty is an ITIN; none begins with 666.
fn id(rng: &mut Rng) -> u64 {
    if rng.one_in(50) {
        let pair = rng.pick(&[(50, 65), (70, 88), (90, 92), (94, 99)]);
        let middle = rng.between(pair.0, pair.1);
        return (rng.between(900, 999) * 100 + middle) * 10_000 + rng.between(0, 9_999);
    }
    loop {
        let id = rng.between(1_010_001, 899_999_999);
        if id / 1_000_000 != 666 {
            return id;
        }
    }
}

/// So many numbers that all differ.
fn distinct(count: usize, rng: &mut Rng, mut draw: impl FnMut(&mut Rng) -> u64) -> Vec<u64> {
    let mut seen = HashSet::new();
    let mut list = Vec::new();
    while list.len() < count {
        let number = draw(rng);
        if seen.insert(number) {
            list.push(number);
        }
    }
    list
}

/// Cents of a quarter: from a few hours to a year's pay, three to eight digits.
fn wages(rng: &mut Rng) -> u64 {
    match rng.between(0, 15) {
        0 => rng.between(100, 99_999),
        1..=3 => rng.between(100_000, 999_999),
        15 => rng.between(10_000_000, 49_999_999),
        _ => rng.between(1_000_000, 9_999_999),
    }
}

/// The lines of a file, each with its end.
struct Lines<'a, W: Write> {
    out: W,
    end: &'a [u8],
}

impl<W: Write> Lines<'_, W> {
    fn put(&mut self, record: &Record) -> io::Result<()> {
        self.out.write_all(record)?;
        self.out.write_all(self.end)
    }
}

/// E, S records and T of one employer; gives their wages.
fn put_employer(
    lines: &mut Lines<impl Write>,
    options: &Options,
    rng: &mut Rng,
    fein: u64,
) -> io::Result<u64> {
    lines.put(&employer(options, rng, fein))?;
    let mut ids = distinct(options.employees, rng, id);
    if options.ascending {
        ids.sort_unstable();
    }
    let mut cents = 0;
    for id in ids {
        let wages = wages(rng);
        cents += wages;
        lines.put(&employee(options, rng, fein, id, wages))?;
    }
    lines.put(&total(fein, options.employees as u64, cents))?;
    Ok(cents)
}

fn put_file(options: &Options) -> io::Result<()> {
    let mut rng = Rng(options.seed);
    // Standard output itself, without the buffer that Rust has for it.
    let stdout = ManuallyDrop::new(unsafe { File::from_raw_fd(1) });
    let mut out = BufWriter::with_capacity(WRITE, &*stdout);
    writeln!(out, "{:04}{:02}", options.year, options.month)?;
    let end = options.end;
    let mut lines = Lines { out, end };
    lines.put(&transmitter(options))?;
    let mut cents = 0;
    for fein in distinct(options.employers, &mut rng, fein) {
        cents += put_employer(&mut lines, options, &mut rng, fein)?;
    }
    let all = (options.employers * options.employees) as u64;
    lines.put(&closing(all, options.employers as u64, cents))?;
    lines.out.flush()
}

fn run() -> Result<(), String> {
    let words: Vec<String> = std::env::args().skip(1).collect();
    put_file(&options(&words)?).map_err(|error| error.to_string())
}

fn main() -> ExitCode {
    match run() {
        Ok(()) => ExitCode::SUCCESS,
        Err(error) => {
            eprintln!("generate: {error}");
            ExitCode::FAILURE
        }
    }
}
