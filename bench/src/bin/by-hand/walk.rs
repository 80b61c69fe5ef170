//! The walk over a file: what is known after each line.

use crate::bounds::{value, Columns};
use crate::calendar::Quarter;
use crate::edits::{edit_input_end, edit_line, Before, Phase, Refusal, MOST_S};
use crate::employee::{self, Pattern, LONGEST_LINE};
use crate::employer;
use crate::feins::{Feins, MOST_EMPLOYERS};
use crate::frames::{put_closing, put_entry, put_refusal, Entry};
use crate::ids::Ids;
use crate::layout::LENGTH;
use crate::lines::first_line;
use crate::total;

/// Six digits and LF.
pub const HEADER: usize = 7;
pub const NO_QUARTER: Refusal = Refusal::new(70, 0, 0);

pub struct Walk {
    held: Quarter,
    /// A's, and its digits.
    quarter: Quarter,
    year: [u8; 4],
    period: [u8; 2],
    phase: Phase,
    lines: u64,
    employees: u64,
    cents: u64,
    open: Open,
    pattern: Pattern,
    ids: Ids,
    feins: Feins,
    list: [Entry; MOST_EMPLOYERS],
    employers: usize,
}

/// The E that is open.
struct Open {
    fein: u32,
    digits: [u8; 9],
    s_follow: bool,
    employees: u64,
    cents: u64,
}

impl Walk {
    pub const fn new() -> Walk {
        Walk {
            held: Quarter::new(0, 0),
            quarter: Quarter::new(0, 0),
            year: [0; 4],
            period: [0; 2],
            phase: Phase::BeforeA,
            lines: 0,
            employees: 0,
            cents: 0,
            open: Open {
                fein: 0,
                digits: [0; 9],
                s_follow: false,
                employees: 0,
                cents: 0,
            },
            pattern: Pattern::new(),
            ids: Ids::new(),
            feins: Feins::new(),
            list: [Entry::NONE; MOST_EMPLOYERS],
            employers: 0,
        }
    }

    /// "six digits YYYYMM of the last closed quarter and LF (else 70; [...])"
    pub fn open(&mut self, input: &[u8]) -> Result<(), Refusal> {
        let (digits, end) = (&input[..6], input[6]);
        if end != b'\n' || !digits.iter().all(u8::is_ascii_digit) {
            return Err(NO_QUARTER);
        }
        self.held = Quarter::new(value(&digits[..4]), value(&digits[4..]));
        match self.held.may_be_held() {
            true => Ok(()),
            false => Err(NO_QUARTER),
        }
    }

    /// Takes lines while more bytes remain than any line has. Tells how many bytes they took.
    pub fn lines(&mut self, bytes: &[u8]) -> Result<usize, Refusal> {
        let mut at = self.run(bytes);
        while bytes.len() - at >= LONGEST_LINE {
            at += self.line(&bytes[at..])?;
            at += self.run(&bytes[at..]);
        }
        Ok(at)
    }

    /// The lines that are left, of which the last is followed by nothing, and the end.
    pub fn last_lines(&mut self, bytes: &[u8]) -> Result<(), Refusal> {
        let mut at = 0;
        while at < bytes.len() {
            at += self.line(&bytes[at..])?;
        }
        edit_input_end(self.phase, self.lines)
    }

    /// S records, where they may stand. Where some of many are not fine, they are taken one by one up to the first that is
    /// not.
    fn run(&mut self, bytes: &[u8]) -> usize {
        if self.phase != Phase::EOpen || !self.open.s_follow {
            return 0;
        }
        let (mut at, mut most) = (0, usize::MAX);
        loop {
            let left = (MOST_S - self.employees) as usize;
            match employee::take(&bytes[at..], most.min(left), &self.pattern, &mut self.ids) {
                None if most == 1 => return at,
                None => most = 1,
                Some(run) if run.lines == 0 => return at,
                Some(run) => at += self.keep(&run),
            }
        }
    }

    fn keep(&mut self, run: &employee::Run) -> usize {
        let lines = run.lines as u64;
        self.lines += lines;
        self.open.employees += lines;
        self.open.cents += run.cents;
        self.employees += lines;
        self.cents += run.cents;
        run.bytes
    }

    /// One line of any kind.
    fn line(&mut self, bytes: &[u8]) -> Result<usize, Refusal> {
        if let Some((line, taken)) = whole_line(bytes) {
            if self.is_fine(line) {
                self.take(line);
                return Ok(taken);
            }
        }
        let cut = first_line(bytes);
        let line = self.lines + 1;
        edit_line(&cut, self).map_err(|broken| Refusal::new(broken.number, line, broken.column))?;
        let text = cut
            .text
            .first_chunk()
            .expect("a line that is fine has 290 columns");
        self.take(text);
        Ok(cut.taken())
    }

    /// Whether a line breaks no edit; not every such line is told.
    fn is_fine(&self, line: &Columns) -> bool {
        match (self.phase, line[0] & 0xDF) {
            (Phase::AfterA | Phase::AfterT, b'E') => self.is_fine_e(line),
            (Phase::EOpen, b'T') => self.is_fine_t(line),
            _ => false,
        }
    }

    fn is_fine_e(&self, line: &Columns) -> bool {
        let current = self.quarter.is_current(self.held);
        employer::is_fine(line, self.quarter, (&self.year, &self.period), current)
            && self.employers < MOST_EMPLOYERS
            && !self.feins.contains(employer::fein(line))
    }

    fn is_fine_t(&self, line: &Columns) -> bool {
        let open = &self.open;
        (open.employees > 0 || !open.s_follow)
            && total::is_fine(line, &open.digits, open.employees, open.cents)
    }

    /// What a line that breaks no edit leaves.
    fn take(&mut self, line: &Columns) {
        self.lines += 1;
        match line[0] & 0xDF {
            b'A' => self.take_a(line),
            b'E' => self.take_e(line),
            b'S' => self.take_s(line),
            b'T' => self.take_t(),
            _ => self.phase = Phase::AfterF,
        }
    }

    fn take_a(&mut self, line: &Columns) {
        self.phase = Phase::AfterA;
        self.year.copy_from_slice(&line[1..5]);
        self.period.copy_from_slice(&line[18..20]);
        self.quarter = Quarter::new(value(&self.year), value(&self.period));
    }

    fn take_e(&mut self, line: &Columns) {
        self.phase = Phase::EOpen;
        let fein = employer::fein(line);
        self.open = Open {
            fein,
            digits: [0; 9],
            s_follow: line[189] == b'1',
            employees: 0,
            cents: 0,
        };
        self.open.digits.copy_from_slice(&line[5..14]);
        self.pattern = Pattern::of(&self.period, &self.year, &self.open.digits);
        self.ids.begin();
        self.feins.put(fein);
        self.list[self.employers] = Entry {
            fein,
            amended: u8::from(line[186] == b'1'),
            final_return: u8::from(line[281] == b'1'),
            cease_date: value(&line[282..290]) as u32,
            ..Entry::NONE
        };
        self.employers += 1;
    }

    /// An S that was not taken in a run.
    fn take_s(&mut self, line: &Columns) {
        let cents = value(&line[63..77]);
        self.employees += 1;
        self.cents += cents;
        self.open.employees += 1;
        self.open.cents += cents;
        let id = value(&line[1..10]) as u32;
        if id != 0 {
            self.ids.room()[0] = id;
            self.ids.keep(1, true, true);
        }
    }

    fn take_t(&mut self) {
        self.phase = Phase::AfterT;
        let entry = &mut self.list[self.employers - 1];
        entry.count = self.open.employees as u32;
        entry.cents = self.open.cents;
    }

    /// The answer to a file that ended so.
    pub fn frames(&self, outcome: Result<(), Refusal>) -> Vec<u8> {
        let mut out = Vec::with_capacity(47 * self.employers + 35);
        if let Err(refusal) = outcome {
            put_refusal(&mut out, &refusal);
            return out;
        }
        for entry in &self.list[..self.employers] {
            put_entry(&mut out, entry);
        }
        let (employees, employers) = (self.employees as u32, self.employers as u32);
        put_closing(&mut out, employees, employers, self.cents);
        out
    }
}

/// The first 290 bytes, if an end is after them, and how many bytes they take with it. There may be an end among them.
fn whole_line(bytes: &[u8]) -> Option<(&Columns, usize)> {
    let (line, behind) = bytes.split_first_chunk()?;
    match behind {
        [b'\r', b'\n', ..] => Some((line, LENGTH + 2)),
        [b'\r' | b'\n', ..] => Some((line, LENGTH + 1)),
        _ => None,
    }
}

/// What came before a line, for the plain code.
impl Before for Walk {
    fn held(&self) -> Quarter {
        self.held
    }
    fn phase(&self) -> Phase {
        self.phase
    }
    fn quarter_of_a(&self) -> Quarter {
        self.quarter
    }
    fn open_fein(&self) -> u64 {
        self.open.fein.into()
    }
    fn open_says_s_follow(&self) -> bool {
        self.open.s_follow
    }
    fn s_since_e(&self) -> u64 {
        self.open.employees
    }
    fn cents_since_e(&self) -> u128 {
        self.open.cents.into()
    }
    fn id_since_e(&self, id: u64) -> bool {
        self.ids.contains(id as u32)
    }
    fn id_table_full(&self) -> bool {
        self.ids.is_full()
    }
    fn fein_on_earlier_e(&self, fein: u64) -> bool {
        self.feins.contains(fein as u32)
    }
    fn employer_list_full(&self) -> bool {
        self.employers == MOST_EMPLOYERS
    }
    fn s_in_file(&self) -> u64 {
        self.employees
    }
    fn e_in_file(&self) -> u64 {
        self.employers as u64
    }
    fn cents_in_file(&self) -> u128 {
        self.cents.into()
    }
}
