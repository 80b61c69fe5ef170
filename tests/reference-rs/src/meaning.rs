//! The meaning of a file: what acknowledgement it gets, found by looking back at its earlier lines.
//!
//! Nothing is carried from line to line but the list of the lines before, each of which broke no
//! edit. What a line's edits ask (`Before`) is read off that list: by scanning it back
//! (`ByScanning`, which is the definition), or from a note beside each line of what such a scan
//! would give (`ByNotes`, for long files). `agree` holds the two against each other.

use crate::calendar::Quarter;
use crate::edits::{edit_input_end, edit_line, Before, Phase, Record, Refusal};
use crate::layout;
use crate::lines::lines_of;
use std::collections::{HashMap, HashSet};

/// "Only the first 65,536 entries of the employer list are used."
pub const MOST_EMPLOYERS: usize = 65_536;

/// The lengths of the two lent tables.
#[derive(Clone, Copy, Debug, PartialEq, Eq)]
pub struct Room {
    pub ids: usize,
    pub employers: usize,
}

impl Room {
    fn employers_used(self) -> usize {
        self.employers.min(MOST_EMPLOYERS)
    }
}

/// An employer's entry: "FEIN, S count, cents". Document 02 (xiii): "The wage file's employer entry
/// gains, at E, the amended flag, the final flag and the cease date as a number, zero if none."
#[derive(Clone, Copy, Debug, Default, PartialEq, Eq)]
pub struct Entry {
    pub fein: u64,
    pub count: u64,
    pub cents: u64,
    pub amended: u64,
    pub final_return: u64,
    pub cease_date: u64,
}

impl Entry {
    /// Of a return that is neither amended nor final.
    pub const fn plain(fein: u64, count: u64, cents: u64) -> Entry {
        Entry {
            fein,
            count,
            cents,
            amended: 0,
            final_return: 0,
            cease_date: 0,
        }
    }

    /// The same of another kind of return: amended, final, and the date of the latter.
    pub const fn of_kind(self, amended: u64, final_return: u64, cease_date: u64) -> Entry {
        Entry {
            amended,
            final_return,
            cease_date,
            ..self
        }
    }
}

/// What is told of an accepted file.
#[derive(Clone, Debug, PartialEq, Eq)]
pub struct Accepted {
    /// "in file order"
    pub entries: Vec<Entry>,
    pub s_count: u64,
    pub e_count: u64,
    pub cents: u64,
}

#[derive(Clone, Debug, PartialEq, Eq)]
pub enum Outcome {
    Accepted(Accepted),
    Refused(Refusal),
}

/// The acknowledgement of a whole file.
pub fn acknowledge(held: Quarter, room: Room, file: &[u8]) -> Outcome {
    acknowledge_by(ByNotes::new(held, room), held, file)
}

/// The same with every look back a scan, for short files.
pub fn acknowledge_by_scanning(held: Quarter, room: Room, file: &[u8]) -> Outcome {
    acknowledge_by(ByScanning::new(held, room), held, file)
}

fn acknowledge_by<'a, B>(mut before: B, held: Quarter, file: &'a [u8]) -> Outcome
where
    B: Before + Earlier<'a>,
{
    // "70: bad quarter at opening, line 0, column 0"
    if !held.may_be_held() {
        return Outcome::Refused(Refusal::new(70, 0, 0));
    }
    // "Lines in file order."
    for cut in lines_of(file) {
        if let Err(broken) = edit_line(&cut, &before) {
            let line = before.lines().len() as u64 + 1;
            return Outcome::Refused(Refusal::new(broken.number, line, broken.column));
        }
        before.remember(Record::new(cut.text));
    }
    match edit_input_end(before.phase(), before.lines().len() as u64) {
        Err(refusal) => Outcome::Refused(refusal),
        Ok(()) => Outcome::Accepted(accepted(before.lines())),
    }
}

/// "Then the employers reported are those of its E records, the counts and wage totals those of the
/// S records under each." Read afresh from the lines.
fn accepted(lines: &[Record]) -> Accepted {
    let entries: Vec<Entry> = lines
        .iter()
        .enumerate()
        .filter(|(_, line)| line.letter() == b'E')
        .map(|(place, line)| entry(line, &lines[place + 1..]))
        .collect();
    Accepted {
        s_count: entries.iter().map(|e| e.count).sum(),
        e_count: entries.len() as u64,
        cents: entries.iter().map(|e| e.cents).sum(),
        entries,
    }
}

/// "The S records under an E are those after it with no other line between."
fn entry(e: &Record, behind: &[Record]) -> Entry {
    let under: Vec<&Record> = behind.iter().take_while(|l| l.letter() == b'S').collect();
    Entry {
        fein: fein_of(e),
        count: under.len() as u64,
        cents: under.iter().map(|s| wages_of(s)).sum(),
        amended: digit_of(e, layout::AMENDED_IN_E),
        final_return: digit_of(e, layout::FINAL_IN_E),
        cease_date: cease_date_of(e),
    }
}

/// A flag, which is a digit in one column.
fn digit_of(e: &Record, column: usize) -> u64 {
    e.value(column, column)
}

/// The number that its eight digits MMDDYYYY read; zeros are none.
fn cease_date_of(e: &Record) -> u64 {
    let (first, last) = layout::CEASE_DATE_IN_E;
    e.value(first, last)
}

fn fein_of(e: &Record) -> u64 {
    let (first, last) = layout::FEIN_IN_E;
    e.value(first, last)
}

fn says_s_follow(e: &Record) -> bool {
    e.at(layout::S_FOLLOW_IN_E) == b'1'
}

fn id_of(s: &Record) -> u64 {
    let (first, last) = layout::IDENTITY_IN_S;
    s.value(first, last)
}

fn wages_of(s: &Record) -> u64 {
    let (first, last) = layout::WAGES_IN_S;
    s.value(first, last)
}

fn quarter_of(a: &Record) -> Quarter {
    let (year, period) = (layout::YEAR_IN_A, layout::PERIOD_IN_A);
    Quarter::new(a.value(year.0, year.1), a.value(period.0, period.1))
}

/// The earlier lines, none of which broke an edit.
pub trait Earlier<'a> {
    fn lines(&self) -> &[Record<'a>];
    fn remember(&mut self, line: Record<'a>);
}

/// The phase is told by the last line: an E and the S records under it leave the E open.
fn phase_after(lines: &[Record]) -> Phase {
    match lines.last().map(Record::letter) {
        None => Phase::BeforeA,
        Some(b'A') => Phase::AfterA,
        Some(b'E' | b'S') => Phase::EOpen,
        Some(b'T') => Phase::AfterT,
        Some(b'F') => Phase::AfterF,
        Some(_) => unreachable!("4 refuses every other letter"),
    }
}

/// The definition: every question is a scan over the lines before.
pub struct ByScanning<'a> {
    held: Quarter,
    room: Room,
    lines: Vec<Record<'a>>,
}

impl<'a> ByScanning<'a> {
    fn new(held: Quarter, room: Room) -> ByScanning<'a> {
        ByScanning {
            held,
            room,
            lines: Vec::new(),
        }
    }

    fn all(&self, letter: u8) -> impl Iterator<Item = &Record<'a>> {
        self.lines.iter().filter(move |l| l.letter() == letter)
    }

    /// The S records under the open E: back from here, with no other line between.
    fn under_open_e(&self) -> impl Iterator<Item = &Record<'a>> {
        self.lines.iter().rev().take_while(|l| l.letter() == b'S')
    }

    /// The first line back that is no S.
    fn open_e(&self) -> &Record<'a> {
        let nearest = self.lines.iter().rev().find(|l| l.letter() != b'S');
        let e = nearest.expect("an E is open");
        assert_eq!(e.letter(), b'E');
        e
    }
}

impl<'a> Earlier<'a> for ByScanning<'a> {
    fn lines(&self) -> &[Record<'a>] {
        &self.lines
    }
    fn remember(&mut self, line: Record<'a>) {
        self.lines.push(line);
    }
}

impl Before for ByScanning<'_> {
    fn held(&self) -> Quarter {
        self.held
    }
    fn phase(&self) -> Phase {
        phase_after(&self.lines)
    }
    fn quarter_of_a(&self) -> Quarter {
        quarter_of(self.all(b'A').next().expect("A is read"))
    }
    fn open_fein(&self) -> u64 {
        fein_of(self.open_e())
    }
    fn open_says_s_follow(&self) -> bool {
        says_s_follow(self.open_e())
    }
    fn s_since_e(&self) -> u64 {
        self.under_open_e().count() as u64
    }
    /// "Sums are of whole cents and never wrap."
    fn cents_since_e(&self) -> u128 {
        self.under_open_e().map(|s| u128::from(wages_of(s))).sum()
    }
    fn id_since_e(&self, id: u64) -> bool {
        self.under_open_e().any(|s| id_of(s) == id)
    }
    /// "only such numbers take room": those that are not zero.
    fn id_table_full(&self) -> bool {
        self.under_open_e().filter(|s| id_of(s) != 0).count() >= self.room.ids
    }
    fn fein_on_earlier_e(&self, fein: u64) -> bool {
        self.all(b'E').any(|e| fein_of(e) == fein)
    }
    fn employer_list_full(&self) -> bool {
        self.all(b'E').count() >= self.room.employers_used()
    }
    fn s_in_file(&self) -> u64 {
        self.all(b'S').count() as u64
    }
    fn e_in_file(&self) -> u64 {
        self.all(b'E').count() as u64
    }
    fn cents_in_file(&self) -> u128 {
        self.all(b'S').map(|s| u128::from(wages_of(s))).sum()
    }
}

/// What a scan back from after a line would give, kept beside the line.
#[derive(Clone, Copy, Default)]
struct Note {
    /// The place of the last E among the lines.
    last_e: usize,
    /// Of all lines up to this one: S records, E records, S records with a number, cents.
    s: u64,
    e: u64,
    numbers: u64,
    cents: u128,
}

/// The same answers from notes.
pub struct ByNotes<'a> {
    held: Quarter,
    room: Room,
    lines: Vec<Record<'a>>,
    notes: Vec<Note>,
    feins: HashSet<u64>,
    /// The place of the last S that holds an identity number.
    last_line_of_id: HashMap<u64, usize>,
}

impl<'a> ByNotes<'a> {
    fn new(held: Quarter, room: Room) -> ByNotes<'a> {
        ByNotes {
            held,
            room,
            lines: Vec::new(),
            notes: Vec::new(),
            feins: HashSet::new(),
            last_line_of_id: HashMap::new(),
        }
    }

    fn now(&self) -> Note {
        self.notes.last().copied().unwrap_or_default()
    }

    /// The note beside the open E.
    fn at_open_e(&self) -> Note {
        self.notes[self.now().last_e]
    }

    fn open_e(&self) -> &Record<'a> {
        &self.lines[self.now().last_e]
    }
}

impl<'a> Earlier<'a> for ByNotes<'a> {
    fn lines(&self) -> &[Record<'a>] {
        &self.lines
    }

    fn remember(&mut self, line: Record<'a>) {
        let place = self.lines.len();
        let mut note = self.now();
        if line.letter() == b'E' {
            note.last_e = place;
            note.e += 1;
            self.feins.insert(fein_of(&line));
        }
        if line.letter() == b'S' {
            note.s += 1;
            note.cents += u128::from(wages_of(&line));
            note.numbers += u64::from(id_of(&line) != 0);
            self.last_line_of_id.insert(id_of(&line), place);
        }
        self.lines.push(line);
        self.notes.push(note);
    }
}

impl Before for ByNotes<'_> {
    fn held(&self) -> Quarter {
        self.held
    }
    fn phase(&self) -> Phase {
        phase_after(&self.lines)
    }
    fn quarter_of_a(&self) -> Quarter {
        quarter_of(&self.lines[0])
    }
    fn open_fein(&self) -> u64 {
        fein_of(self.open_e())
    }
    fn open_says_s_follow(&self) -> bool {
        says_s_follow(self.open_e())
    }
    fn s_since_e(&self) -> u64 {
        self.now().s - self.at_open_e().s
    }
    fn cents_since_e(&self) -> u128 {
        self.now().cents - self.at_open_e().cents
    }
    fn id_since_e(&self, id: u64) -> bool {
        let last = self.last_line_of_id.get(&id);
        last.is_some_and(|place| *place > self.now().last_e)
    }
    fn id_table_full(&self) -> bool {
        self.now().numbers - self.at_open_e().numbers >= self.room.ids as u64
    }
    fn fein_on_earlier_e(&self, fein: u64) -> bool {
        self.feins.contains(&fein)
    }
    fn employer_list_full(&self) -> bool {
        self.now().e >= self.room.employers_used() as u64
    }
    fn s_in_file(&self) -> u64 {
        self.now().s
    }
    fn e_in_file(&self) -> u64 {
        self.now().e
    }
    fn cents_in_file(&self) -> u128 {
        self.now().cents
    }
}
