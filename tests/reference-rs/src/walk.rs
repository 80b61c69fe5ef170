//! A model of the calls: opening, one line, end, and the whole file in one slice, on every state
//! and every pair of tables, altered ones too. It says what each call answers, what state it leaves
//! and what it leaves in the tables. The state is that of all formats; the calls here are those of
//! PFML, and of a format that is none (`exports` has all).
//!
//! Readings of open points are numbered as in docs/DECISIONS.md ("How the paper is read").

use crate::calendar::{ends_quarter, Period, Quarter};
use crate::edits::{edit_input_end, edit_line, Before, Phase, Record, Refusal, MOST_S};
use crate::format::Format;
use crate::layout;
use crate::lines::first_line;
use crate::meaning::{Entry, MOST_EMPLOYERS};

/// "lines read exceed 231,074": A, 100,000 S, an E and a T for each of 65,536 employers, and F.
pub const MOST_LINES: u64 = 231_074;
/// The most that 14 columns hold.
pub const MOST_WAGES: u128 = 99_999_999_999_999;

/// Where a walk stands (19: "The phase is one of seven").
#[derive(Clone, Copy, Debug, PartialEq, Eq)]
pub enum Standing {
    Among(Phase),
    Accepted,
    /// "the state keeps number and place"
    Refused(Refusal),
}

/// The open E's numbers; they count for nothing when none is open.
#[derive(Clone, Copy, Debug, Default, PartialEq, Eq)]
pub struct OpenE {
    pub fein: u64,
    pub says_s_follow: bool,
    pub s: u64,
    pub cents: u64,
    pub ids_in_use: u64,
    pub more: MoreOfE,
}

/// What other formats keep of an open E, and PFML uses none of: its second sum, its other records,
/// the nearest number, whether a note was seen, and its account.
#[derive(Clone, Copy, Debug, Default, PartialEq, Eq)]
pub struct MoreOfE {
    pub second: u64,
    pub others: u64,
    pub nearest: u64,
    pub noted: bool,
    pub account: [u64; 2],
}

/// What other formats keep of a file, and PFML uses none of: its second sum, its other records, its
/// notes.
#[derive(Clone, Copy, Debug, Default, PartialEq, Eq)]
pub struct MoreOfFile {
    pub second: u64,
    pub others: u64,
    pub notes: u64,
}

/// All that goes from call to call beside the tables.
#[derive(Clone, Copy, Debug, PartialEq, Eq)]
pub struct State {
    pub format: Format,
    pub standing: Standing,
    pub held: Quarter,
    pub quarter_of_a: Quarter,
    pub lines_read: u64,
    pub employers: u64,
    pub s: u64,
    pub cents: u64,
    pub open: OpenE,
    pub more: MoreOfFile,
}

/// What a line call answers: the bytes taken, or a refusal and "0 if refused".
#[derive(Clone, Copy, Debug, PartialEq, Eq)]
pub struct LineAnswer {
    pub taken: usize,
    pub refusal: Option<Refusal>,
}

/// What an opening or end call answers: none, or a refusal.
pub type Answer = Option<Refusal>;

impl State {
    /// A walk over a PFML file that was just opened.
    pub fn opened(held: Quarter) -> State {
        State {
            format: Format::Pfml,
            standing: Standing::Among(Phase::BeforeA),
            held,
            quarter_of_a: Quarter::default(),
            lines_read: 0,
            employers: 0,
            s: 0,
            cents: 0,
            open: OpenE::default(),
            more: MoreOfFile::default(),
        }
    }

    /// "After these and 70 the state keeps number and place, every count and sum zero, no E open."
    /// (16: "every other number zero, both quarters too, also after 70".) The format is kept.
    fn refused(format: Format, refusal: Refusal) -> State {
        State {
            format,
            standing: Standing::Refused(refusal),
            ..State::opened(Quarter::default())
        }
    }

    fn e_is_open(&self) -> bool {
        self.standing == Standing::Among(Phase::EOpen)
    }

    fn is_refused(&self) -> bool {
        matches!(self.standing, Standing::Refused(_))
    }

    fn a_is_read(&self) -> bool {
        !self.is_refused() && self.standing != Standing::Among(Phase::BeforeA)
    }
}

/// The opening: "Opening zeroes both tables, every entry." "70: bad quarter at opening, line 0,
/// column 0; nothing touched". "73, unknown edition, at opening after 70 and acting as 70 does".
pub fn open(format: Format, held: Quarter, ids: &mut [u32], list: &mut [Entry]) -> (State, Answer) {
    let number = match format {
        _ if !held.may_be_held() => 70,
        Format::Unknown => 73,
        Format::Wham(_) => unreachable!("it has a walk of its own"),
        Format::Pfml => {
            zero_both(ids, list);
            return (State::opened(held), None);
        }
    };
    let refusal = Refusal::new(number, 0, 0);
    (State::refused(format, refusal), Some(refusal))
}

/// One line: "reads the first line of the bytes it is lent, answers how many bytes that line and
/// its end take (0 if refused) and ignores the rest."
pub fn line(state: &mut State, ids: &mut [u32], list: &mut [Entry], bytes: &[u8]) -> LineAnswer {
    let phase = match standing_answer(state, ids, list) {
        Err(refusal) => return refused_line(refusal),
        Ok(phase) => phase,
    };
    let cut = first_line(bytes);
    let before = InState {
        state,
        phase,
        ids,
        list,
    };
    if let Err(broken) = edit_line(&cut, &before) {
        let refusal = Refusal::new(broken.number, state.lines_read + 1, broken.column);
        return refused_line(refuse(state, ids, list, refusal));
    }
    take(state, ids, list, &Record::new(cut.text));
    LineAnswer {
        taken: cut.taken(),
        refusal: None,
    }
}

/// The end: acceptance, or one of 5 to 8. An accepting end call writes nothing (17) and leaves all
/// that the state held after F, the phase apart (15).
pub fn end(state: &mut State, ids: &mut [u32], list: &mut [Entry]) -> Answer {
    let phase = match standing_answer(state, ids, list) {
        Err(refusal) => return Some(refusal),
        Ok(phase) => phase,
    };
    if let Err(refusal) = edit_input_end(phase, state.lines_read) {
        return Some(refuse(state, ids, list, refusal));
    }
    state.standing = Standing::Accepted;
    None
}

/// The same over a whole file in one slice: "line calls while any byte remains and none is refused,
/// then one end call" (20: the final state and the end call's answer).
pub fn whole(
    format: Format,
    held: Quarter,
    ids: &mut [u32],
    list: &mut [Entry],
    file: &[u8],
) -> (State, Answer) {
    let (mut state, opening) = open(format, held, ids, list);
    let mut rest = file;
    let mut refused = opening.is_some();
    while !rest.is_empty() && !refused {
        let answer = line(&mut state, ids, list, rest);
        refused = answer.refusal.is_some();
        rest = &rest[answer.taken..];
    }
    let answer = end(&mut state, ids, list);
    (state, answer)
}

fn refused_line(refusal: Refusal) -> LineAnswer {
    LineAnswer {
        taken: 0,
        refusal: Some(refusal),
    }
}

fn zero_both(ids: &mut [u32], list: &mut [Entry]) {
    ids.fill(0);
    list.fill(Entry::default());
}

/// "A refusal from 1 to 63, or a later number for an edit of a record, zeroes both, ends the walk".
fn refuse(state: &mut State, ids: &mut [u32], list: &mut [Entry], refusal: Refusal) -> Refusal {
    zero_both(ids, list);
    *state = State::refused(state.format, refusal);
    refusal
}

/// The answer of a line or end call that looks at no line: 72, then that of a refused walk, then
/// 71; else the phase that the walk is in.
fn standing_answer(state: &State, ids: &mut [u32], list: &mut [Entry]) -> Result<Phase, Refusal> {
    // "72 comes first of all"; "state unfit; nothing changed"; "71, 72 and 80 to 83 give line 0,
    // column 0."
    if unfit(state, ids.len(), list.len()) {
        return Err(Refusal::new(72, 0, 0));
    }
    match state.standing {
        Standing::Among(phase) => Ok(phase),
        // "71: line or end after acceptance; nothing changed"
        Standing::Accepted => Err(Refusal::new(71, 0, 0)),
        Standing::Refused(refusal) => {
            // "and is answered again, both zeroed again, to each later line or end call"; but 70:
            // "each later line or end call answers 70 again and touches nothing", and so with 73.
            if !is_of_an_opening(refusal.number) {
                zero_both(ids, list);
            }
            Err(refusal)
        }
    }
}

/// "72 comes first of all and exactly if: ..."
pub fn unfit(state: &State, id_table: usize, employer_list: usize) -> bool {
    unfit_file(state, employer_list)
        || (state.e_is_open() && unfit_open_e(state, id_table))
        || unfit_standing(state)
        || unfit_format(state)
}

/// What is tested in every walk, refused and ended too (18).
fn unfit_file(state: &State, employer_list: usize) -> bool {
    // "employers exceed the list or 65,536"
    state.employers > employer_list as u64
        || state.employers > MOST_EMPLOYERS as u64
        // "S in the file exceed 100,000"
        || state.s > MOST_S
        // "either wage sum exceeds its S count times 99,999,999,999,999"
        || u128::from(state.cents) > u128::from(state.s) * MOST_WAGES
        // "lines read exceed 231,074"
        || state.lines_read > MOST_LINES
}

/// "nor an open E's numbers, ids in use among them, when none is open"
fn unfit_open_e(state: &State, id_table: usize) -> bool {
    let open = &state.open;
    // "ids in use exceed the id table"
    open.ids_in_use > id_table as u64
        // "S in the file [...] are fewer than the open E's"
        || state.s < open.s
        // "either wage sum exceeds its S count times 99,999,999,999,999"
        || u128::from(open.cents) > u128::from(open.s) * MOST_WAGES
        // "an E is open and there is no employer"
        || state.employers == 0
        // "the open E's FEIN exceeds 999,999,999"
        || open.fein > 999_999_999
}

fn unfit_standing(state: &State) -> bool {
    if let Standing::Refused(refusal) = state.standing {
        // "a refused walk's number is none that a refusal leaves in the state"
        return !is_left_by_a_refusal(state.format, refusal.number);
    }
    // "in a walk not refused, the quarter held, or A's once A is read, is none that this paper
    // allows"
    !state.held.may_be_held() || (state.a_is_read() && !may_be_of_a(state.quarter_of_a, state.held))
}

/// A format that is none, "unless the walk is refused with 70 or 73" (include/wage.h).
fn unfit_format(state: &State) -> bool {
    let by_opening = match state.standing {
        Standing::Refused(refusal) => is_of_an_opening(refusal.number),
        _ => false,
    };
    state.format == Format::Unknown && !by_opening
}

/// The numbers that an opening refuses with and leaves in the state.
fn is_of_an_opening(number: u8) -> bool {
    matches!(number, 70 | 73)
}

/// The numbers of the table that end a walk or its opening, 64 and 65; and 73, which an opening
/// leaves with a format that is none.
pub fn is_left_by_a_refusal(format: Format, number: u8) -> bool {
    let by_an_edit = matches!(number, 1..=8 | 10..=20 | 30..=65);
    number == 70
        || if format == Format::Unknown {
            number == 73
        } else {
            by_an_edit
        }
}

/// 18: "if A's edits pass it: from 2025 on, a quarter's month, closed or current".
fn may_be_of_a(quarter: Quarter, held: Quarter) -> bool {
    let timely = match quarter.under(held) {
        Period::Closed | Period::Current => true,
        Period::Later => false,
    };
    quarter.year >= 2025 && ends_quarter(quarter.month) && timely
}

/// What a record that breaks no edit leaves (17).
fn take(state: &mut State, ids: &mut [u32], list: &mut [Entry], record: &Record) {
    state.lines_read += 1;
    match record.letter() {
        b'A' => take_a(state, record),
        b'E' => take_e(state, list, record),
        b'S' => take_s(state, ids, record),
        b'T' => take_t(state, ids, list),
        _ => take_f(state),
    }
}

fn columns(record: &Record, (first, last): (usize, usize)) -> u64 {
    record.value(first, last)
}

/// A, T and F leave the open E's numbers and ids in use zero, those that PFML does not use among
/// them; an E leaves those zero too, an S leaves them as they are, and none changes the file's.
fn take_a(state: &mut State, record: &Record) {
    state.standing = Standing::Among(Phase::AfterA);
    state.quarter_of_a = Quarter::new(
        columns(record, layout::YEAR_IN_A),
        columns(record, layout::PERIOD_IN_A),
    );
    state.open = OpenE::default();
}

/// "An employer's entry gets its FEIN at E, its count and cents (zero till then) at T." Document 02
/// (xiii): the entry "gains, at E, the amended flag, the final flag and the cease date as a number,
/// zero if none". "Room in the id table is used again from each E on."
fn take_e(state: &mut State, list: &mut [Entry], record: &Record) {
    let fein = columns(record, layout::FEIN_IN_E);
    list[state.employers as usize] = Entry {
        fein,
        count: 0,
        cents: 0,
        amended: u64::from(record.at(layout::AMENDED_IN_E) == b'1'),
        final_return: u64::from(record.at(layout::FINAL_IN_E) == b'1'),
        cease_date: columns(record, layout::CEASE_DATE_IN_E),
    };
    state.standing = Standing::Among(Phase::EOpen);
    state.employers += 1;
    state.open = OpenE {
        fein,
        says_s_follow: record.at(layout::S_FOLLOW_IN_E) == b'1',
        ..OpenE::default()
    };
}

/// "While an E is open the id table holds its numbers in file order, then zeros."
fn take_s(state: &mut State, ids: &mut [u32], record: &Record) {
    let id = columns(record, layout::IDENTITY_IN_S);
    let wages = columns(record, layout::WAGES_IN_S);
    state.s += 1;
    state.cents += wages;
    state.open.s += 1;
    state.open.cents += wages;
    if id != 0 {
        ids[state.open.ids_in_use as usize] = id as u32;
        state.open.ids_in_use += 1;
    }
}

/// "An employer's entry gets [...] its count and cents [...] at T." "When no E is open the id table
/// is all zeros." 17: the first that are in use are zeroed, the rest of the entry is left.
fn take_t(state: &mut State, ids: &mut [u32], list: &mut [Entry]) {
    let entry = &mut list[state.employers as usize - 1];
    entry.count = state.open.s;
    entry.cents = state.open.cents;
    ids[..state.open.ids_in_use as usize].fill(0);
    state.standing = Standing::Among(Phase::AfterT);
    state.open = OpenE::default();
}

fn take_f(state: &mut State) {
    state.standing = Standing::Among(Phase::AfterF);
    state.open = OpenE::default();
}

/// What came before a line, as state and tables have it.
struct InState<'a> {
    state: &'a State,
    phase: Phase,
    ids: &'a [u32],
    list: &'a [Entry],
}

impl Before for InState<'_> {
    fn held(&self) -> Quarter {
        self.state.held
    }
    fn phase(&self) -> Phase {
        self.phase
    }
    fn quarter_of_a(&self) -> Quarter {
        self.state.quarter_of_a
    }
    fn open_fein(&self) -> u64 {
        self.state.open.fein
    }
    fn open_says_s_follow(&self) -> bool {
        self.state.open.says_s_follow
    }
    fn s_since_e(&self) -> u64 {
        self.state.open.s
    }
    fn cents_since_e(&self) -> u128 {
        self.state.open.cents.into()
    }
    /// Among the ids in use.
    fn id_since_e(&self, id: u64) -> bool {
        let in_use = &self.ids[..self.state.open.ids_in_use as usize];
        in_use.iter().any(|other| u64::from(*other) == id)
    }
    fn id_table_full(&self) -> bool {
        self.state.open.ids_in_use == self.ids.len() as u64
    }
    /// 12: "compares with E records read, never with zeroed entries of the list".
    fn fein_on_earlier_e(&self, fein: u64) -> bool {
        let read = &self.list[..self.state.employers as usize];
        read.iter().any(|entry| entry.fein == fein)
    }
    fn employer_list_full(&self) -> bool {
        self.state.employers == self.list.len().min(MOST_EMPLOYERS) as u64
    }
    fn s_in_file(&self) -> u64 {
        self.state.s
    }
    fn e_in_file(&self) -> u64 {
        self.state.employers
    }
    fn cents_in_file(&self) -> u128 {
        self.state.cents.into()
    }
}
