//! The command language of the program `tests/c/calls.c`.
//!
//! A command ends with `#`. Its first character names it, digits in fixed columns follow (counted
//! from 1, the name being the first), and then, where a call is lent bytes, a stroke and these:
//!
//! - `O`, opening: the format's number 2-21, year 22-26, month 27-28, ids lent 29-30, entries lent
//!   31-32
//! - `L`, a line: ids lent 2-3, entries lent 4-5; bytes
//! - `E`, the end: ids lent 2-3, entries lent 4-5
//! - `W`, a whole file: as `O`; bytes
//! - `S`, another state: where it stands 2, the refusal's number 3-4, line 5-14 and column 15-19,
//!   lines read 20-29, the quarter held 30-36, A's 37-43, the open E's FEIN 44-53, whether it says
//!   that S records follow 54, its S records 55-64 and cents 65-83, the file's S records 84-93,
//!   employers 94-103 and cents 104-122, ids in use 123-132; it is of PFML, and what PFML does not
//!   use is zero
//! - `T`, another id and another entry: the id's place 2-3, the id 4-13, the entry's place 14-15, its
//!   FEIN 16-25, count 26-35, cents 36-54, amended flag 55-64, final flag 65-74 and date 75-84; a
//!   place after a table's end alters nothing
//! - `X`, a line, lent a list of 65,540 entries: the state has 65,535 employers, or one or two more,
//!   by the digit in 2; bytes
//! - `R`, a record written: `T` or `F` in 2, the length of the slice lent 3-5, at most 300
//! - `H`, a record of an amended withholding file written: as `R`; of a `T` the payments 6-25 and the
//!   total of all employees 26-45
//! - `F`, the frames: entries lent 2-3, the length of the buffer lent 4-6, at most 700
//! - `B`, a record built: `A`, `E` or `S` in 2, the length of the slice lent 3-5, at most 300; then
//!   the values, at most 40, a comma before each; then the texts, at most 600 bytes, after a stroke
//! - `G`, a field read: the record's letter 2, the field's number 3-22; the line, as bytes
//! - `N`, another number in one word of the state: its place 2-3, the number 4-23; a place after
//!   the words alters nothing
//! - `K`, what the calls to come are lent: words of state 2-3, at most 30, and of the answer 4, at
//!   most 6
//!
//! Here a command is written by the widths of its numbers and read by their columns, so that each
//! checks the other.

use crate::build::Built;
use crate::calendar::Quarter;
use crate::edits::{Phase, Refusal};
use crate::format::Format;
use crate::meaning::{Entry, Room};
use crate::walk::{MoreOfE, MoreOfFile, OpenE, Standing, State};
use crate::wham::write::Given;
use crate::write::Written;

#[derive(Clone, Debug, PartialEq, Eq)]
pub enum Command {
    Open {
        /// The format's number.
        format: u64,
        held: Quarter,
        lent: Room,
    },
    Line {
        lent: Room,
        bytes: Vec<u8>,
    },
    End {
        lent: Room,
    },
    Whole {
        format: u64,
        held: Quarter,
        lent: Room,
        bytes: Vec<u8>,
    },
    State(State),
    Tables(Alteration),
    Beyond {
        more: u64,
        bytes: Vec<u8>,
    },
    Write {
        record: Written,
        length: usize,
    },
    WriteWham {
        record: Written,
        length: usize,
        /// Zeros with an F, which is given nothing.
        given: Given,
    },
    Frames {
        entries: usize,
        length: usize,
    },
    Build {
        record: Built,
        length: usize,
        values: Vec<u64>,
        texts: Vec<u8>,
    },
    Field {
        letter: u8,
        field: u64,
        line: Vec<u8>,
    },
    Word {
        at: usize,
        number: u64,
    },
    Lend(Lent),
}

/// So many words of the state and of the answer.
#[derive(Clone, Copy, Debug, PartialEq, Eq)]
pub struct Lent {
    pub words: usize,
    pub answer: usize,
}

impl Lent {
    /// Just what there is to be written.
    pub const ENOUGH: Lent = Lent {
        words: 27,
        answer: 4,
    };
    pub const MOST: Lent = Lent {
        words: 30,
        answer: 6,
    };
}

/// The longest buffer that the program can lend to a call for frames.
pub const LONGEST_BUFFER: usize = 700;

/// The longest slice that the program can lend to a call that writes or builds a record.
pub const LONGEST_SLICE: usize = 300;

/// The most values and bytes of texts that it can lend to a building call.
pub const MOST_VALUES: usize = 40;
pub const MOST_TEXTS: usize = 600;

/// Another id and another entry.
#[derive(Clone, Copy, Debug, PartialEq, Eq)]
pub struct Alteration {
    pub id_at: usize,
    pub id: u32,
    pub entry_at: usize,
    pub entry: Entry,
}

/// The numbers that the language can put into a refused state; another is read as the last.
pub const NUMBERS: [u8; 11] = [1, 44, 63, 64, 65, 70, 71, 72, 73, 80, 83];

/// The phases in the order of their numbers.
pub const PHASES: [Phase; 5] = [
    Phase::BeforeA,
    Phase::AfterA,
    Phase::EOpen,
    Phase::AfterT,
    Phase::AfterF,
];

/// The number of where a walk stands: 0 to 4 the phases, 5 accepted, 6 refused.
pub fn standing_number(standing: Standing) -> u64 {
    match standing {
        Standing::Among(phase) => {
            let place = PHASES.iter().position(|one| *one == phase);
            place.expect("there are five") as u64
        }
        Standing::Accepted => 5,
        Standing::Refused(_) => 6,
    }
}

/// The refusal that a state holds, and zeros if it holds none.
pub fn refusal_held(standing: Standing) -> Refusal {
    match standing {
        Standing::Refused(refusal) => refusal,
        _ => Refusal::new(0, 0, 0),
    }
}

/// A state with zeros for all that PFML does not use, as `S` tells it.
pub fn plain(state: &State) -> State {
    let mut plain = *state;
    plain.format = Format::Pfml;
    plain.open.more = MoreOfE::default();
    plain.more = MoreOfFile::default();
    plain
}

/// A command being written.
struct Text(Vec<u8>);

impl Text {
    /// A number in so many digits.
    fn number(&mut self, value: u64, width: usize) -> &mut Text {
        let digits = format!("{value:0width$}");
        assert_eq!(digits.len(), width, "{value} has at most {width} digits");
        self.0.extend_from_slice(digits.as_bytes());
        self
    }

    /// What every opening is given.
    fn opening(&mut self, format: u64, held: Quarter, lent: Room) -> &mut Text {
        self.number(format, 20).quarter(held).lent(lent)
    }

    fn quarter(&mut self, quarter: Quarter) -> &mut Text {
        self.number(quarter.year, 5).number(quarter.month, 2)
    }

    fn lent(&mut self, lent: Room) -> &mut Text {
        self.number(lent.ids as u64, 2)
            .number(lent.employers as u64, 2)
    }

    fn bytes(&mut self, bytes: &[u8]) {
        assert!(!bytes.contains(&b'#'), "no byte ends the command");
        self.0.push(b'|');
        self.0.extend_from_slice(bytes);
    }

    fn state(&mut self, state: &State) {
        assert_eq!(
            plain(state),
            *state,
            "no column is for what PFML does not use"
        );
        let refusal = refusal_held(state.standing);
        self.number(standing_number(state.standing), 1)
            .number(refusal.number.into(), 2)
            .number(refusal.line, 10)
            .number(refusal.column, 5)
            .number(state.lines_read, 10)
            .quarter(state.held)
            .quarter(state.quarter_of_a)
            .number(state.open.fein, 10)
            .number(state.open.says_s_follow.into(), 1)
            .number(state.open.s, 10)
            .number(state.open.cents, 19)
            .number(state.s, 10)
            .number(state.employers, 10)
            .number(state.cents, 19)
            .number(state.open.ids_in_use, 10);
    }

    fn alteration(&mut self, altered: &Alteration) {
        self.number(altered.id_at as u64, 2)
            .number(altered.id.into(), 10)
            .number(altered.entry_at as u64, 2)
            .number(altered.entry.fein, 10)
            .number(altered.entry.count, 10)
            .number(altered.entry.cents, 19)
            .number(altered.entry.amended, 10)
            .number(altered.entry.final_return, 10)
            .number(altered.entry.cease_date, 10);
    }

    fn writing(&mut self, record: Written, length: usize) {
        assert!(length <= LONGEST_SLICE, "{length} bytes are too many");
        self.0.push(record.letter());
        self.number(length as u64, 3);
    }

    fn writing_wham(&mut self, record: Written, length: usize, given: Given) {
        self.writing(record, length);
        match record {
            Written::T => drop(self.number(given.payments, 20).number(given.total, 20)),
            Written::F => assert_eq!(given, Given::default(), "an F is given nothing"),
        }
    }

    fn framing(&mut self, entries: usize, length: usize) {
        assert!(length <= LONGEST_BUFFER, "{length} bytes are too many");
        self.number(entries as u64, 2).number(length as u64, 3);
    }

    fn building(&mut self, record: Built, length: usize, values: &[u64], texts: &[u8]) {
        assert!(
            length <= LONGEST_SLICE && values.len() <= MOST_VALUES && texts.len() <= MOST_TEXTS
        );
        self.0.push(record.letter());
        self.number(length as u64, 3);
        for value in values {
            self.0.extend(format!(",{value}").into_bytes());
        }
        self.bytes(texts);
    }

    fn field(&mut self, letter: u8, field: u64, line: &[u8]) {
        assert_ne!(letter, b'#', "no byte ends the command");
        self.0.push(letter);
        self.number(field, 20).bytes(line);
    }

    fn lending(&mut self, lent: Lent) {
        assert!(lent.words <= Lent::MOST.words && lent.answer <= Lent::MOST.answer);
        self.number(lent.words as u64, 2)
            .number(lent.answer as u64, 1);
    }
}

impl Command {
    /// Whether the columns of `S` hold a state's numbers, those apart that PFML does not use.
    pub fn tells(state: &State) -> bool {
        let (open, refusal) = (&state.open, refusal_held(state.standing));
        let years = [state.held.year, state.quarter_of_a.year, refusal.column];
        let months = [state.held.month, state.quarter_of_a.month];
        let counts = [open.fein, open.s, open.ids_in_use, state.s, state.employers];
        let cents = [open.cents, state.cents];
        let below = |numbers: &[u64], most: u64| numbers.iter().all(|number| *number < most);
        below(&years, 100_000)
            && below(&months, 100)
            && below(&counts, 10_000_000_000)
            && below(&cents, 10_000_000_000_000_000_000)
            && (refusal.number == 0 || NUMBERS.contains(&refusal.number))
    }

    /// Whether it is a call of the walk.
    pub fn walks(&self) -> bool {
        matches!(
            self,
            Command::Open { .. }
                | Command::Line { .. }
                | Command::End { .. }
                | Command::Whole { .. }
                | Command::Beyond { .. }
        )
    }

    fn letter(&self) -> u8 {
        match self {
            Command::Open { .. } => b'O',
            Command::Line { .. } => b'L',
            Command::End { .. } => b'E',
            Command::Whole { .. } => b'W',
            Command::State(_) => b'S',
            Command::Tables(_) => b'T',
            Command::Beyond { .. } => b'X',
            Command::Write { .. } => b'R',
            Command::WriteWham { .. } => b'H',
            Command::Frames { .. } => b'F',
            Command::Build { .. } => b'B',
            Command::Field { .. } => b'G',
            Command::Word { .. } => b'N',
            Command::Lend(_) => b'K',
        }
    }

    /// The command as it stands in a script, without the end.
    pub fn text(&self) -> Vec<u8> {
        let mut text = Text(vec![self.letter()]);
        match self {
            Command::Open { format, held, lent } => drop(text.opening(*format, *held, *lent)),
            Command::Line { lent, bytes } => text.lent(*lent).bytes(bytes),
            Command::End { lent } => drop(text.lent(*lent)),
            Command::Whole {
                format,
                held,
                lent,
                bytes,
            } => text.opening(*format, *held, *lent).bytes(bytes),
            Command::State(state) => text.state(state),
            Command::Tables(altered) => text.alteration(altered),
            Command::Beyond { more, bytes } => text.number(*more, 1).bytes(bytes),
            Command::Write { record, length } => text.writing(*record, *length),
            Command::WriteWham {
                record,
                length,
                given,
            } => text.writing_wham(*record, *length, *given),
            Command::Frames { entries, length } => text.framing(*entries, *length),
            Command::Build {
                record,
                length,
                values,
                texts,
            } => {
                text.building(*record, *length, values, texts);
            }
            Command::Field {
                letter,
                field,
                line,
            } => text.field(*letter, *field, line),
            Command::Word { at, number } => drop(text.number(*at as u64, 2).number(*number, 20)),
            Command::Lend(lent) => text.lending(*lent),
        }
        text.0
    }

    /// The command that a text without its end is; none if it is no command.
    pub fn read(text: &[u8]) -> Option<Command> {
        let columns = Columns(text);
        Some(match columns.0.first()? {
            b'O' => columns.opening()?,
            b'L' => Command::Line {
                lent: columns.lent(2)?,
                bytes: columns.bytes(6)?,
            },
            b'E' => Command::End {
                lent: columns.lent(2)?,
            },
            b'W' => columns.whole()?,
            b'S' => Command::State(columns.state()?),
            b'T' => Command::Tables(columns.alteration()?),
            b'X' => Command::Beyond {
                more: columns.number(2, 2)?,
                bytes: columns.bytes(3)?,
            },
            b'R' => columns.writing_pfml()?,
            b'H' => columns.writing_wham()?,
            b'F' => columns.framing()?,
            b'B' => columns.building()?,
            b'G' => Command::Field {
                letter: *columns.0.get(1)?,
                field: columns.number(3, 22)?,
                line: columns.bytes(23)?,
            },
            b'N' => Command::Word {
                at: columns.number(2, 3)? as usize,
                number: columns.number(4, 23)?,
            },
            b'K' => columns.lending()?,
            _ => return None,
        })
    }
}

/// A command being read.
struct Columns<'a>(&'a [u8]);

impl Columns<'_> {
    fn number(&self, first: usize, last: usize) -> Option<u64> {
        let text = std::str::from_utf8(self.0.get(first - 1..last)?).ok()?;
        text.parse().ok()
    }

    /// Year in five columns, month in two.
    fn quarter(&self, first: usize) -> Option<Quarter> {
        let year = self.number(first, first + 4)?;
        Some(Quarter::new(year, self.number(first + 5, first + 6)?))
    }

    fn lent(&self, first: usize) -> Option<Room> {
        Some(Room {
            ids: self.number(first, first + 1)? as usize,
            employers: self.number(first + 2, first + 3)? as usize,
        })
    }

    /// What stands after the stroke in this column.
    fn bytes(&self, stroke: usize) -> Option<Vec<u8>> {
        let (mark, bytes) = self.0.get(stroke - 1..)?.split_first()?;
        (*mark == b'|').then(|| bytes.to_vec())
    }

    fn opening(&self) -> Option<Command> {
        Some(Command::Open {
            format: self.number(2, 21)?,
            held: self.quarter(22)?,
            lent: self.lent(29)?,
        })
    }

    fn whole(&self) -> Option<Command> {
        Some(Command::Whole {
            format: self.number(2, 21)?,
            held: self.quarter(22)?,
            lent: self.lent(29)?,
            bytes: self.bytes(33)?,
        })
    }

    fn standing(&self) -> Option<Standing> {
        let number = self.number(3, 4)? as u8;
        let (line, column) = (self.number(5, 14)?, self.number(15, 19)?);
        Some(match self.number(2, 2)? {
            5 => Standing::Accepted,
            phase @ 0..=4 => Standing::Among(PHASES[phase as usize]),
            _ => {
                let known = NUMBERS.contains(&number);
                let number = if known { number } else { NUMBERS[10] };
                Standing::Refused(Refusal::new(number, line, column))
            }
        })
    }

    fn state(&self) -> Option<State> {
        Some(State {
            format: Format::Pfml,
            standing: self.standing()?,
            lines_read: self.number(20, 29)?,
            held: self.quarter(30)?,
            quarter_of_a: self.quarter(37)?,
            open: OpenE {
                fein: self.number(44, 53)?,
                says_s_follow: self.number(54, 54)? == 1,
                s: self.number(55, 64)?,
                cents: self.number(65, 83)?,
                ids_in_use: self.number(123, 132)?,
                more: MoreOfE::default(),
            },
            s: self.number(84, 93)?,
            employers: self.number(94, 103)?,
            cents: self.number(104, 122)?,
            more: MoreOfFile::default(),
        })
    }

    fn alteration(&self) -> Option<Alteration> {
        Some(Alteration {
            id_at: self.number(2, 3)? as usize,
            id: u32::try_from(self.number(4, 13)?).ok()?,
            entry_at: self.number(14, 15)? as usize,
            entry: Entry {
                fein: self.number(16, 25)?,
                count: self.number(26, 35)?,
                cents: self.number(36, 54)?,
                amended: self.number(55, 64)?,
                final_return: self.number(65, 74)?,
                cease_date: self.number(75, 84)?,
            },
        })
    }

    /// The record, and the length of the slice.
    fn writing(&self) -> Option<(Written, usize)> {
        let letter = self.0.get(1)?;
        let record = Written::BOTH.into_iter().find(|r| r.letter() == *letter)?;
        let length = self.number(3, 5)? as usize;
        (length <= LONGEST_SLICE).then_some((record, length))
    }

    fn writing_pfml(&self) -> Option<Command> {
        let (record, length) = self.writing()?;
        Some(Command::Write { record, length })
    }

    fn writing_wham(&self) -> Option<Command> {
        let (record, length) = self.writing()?;
        let given = match record {
            Written::T => Given {
                payments: self.number(6, 25)?,
                total: self.number(26, 45)?,
            },
            Written::F => Given::default(),
        };
        Some(Command::WriteWham {
            record,
            length,
            given,
        })
    }

    fn framing(&self) -> Option<Command> {
        let entries = self.number(2, 3)? as usize;
        let length = self.number(4, 6)? as usize;
        (length <= LONGEST_BUFFER).then_some(Command::Frames { entries, length })
    }

    fn building(&self) -> Option<Command> {
        let letter = self.0.get(1)?;
        let record = Built::ALL.into_iter().find(|r| r.letter() == *letter)?;
        let length = self.number(3, 5)? as usize;
        let stroke = self.0.iter().position(|c| *c == b'|')?;
        let numbers = std::str::from_utf8(self.0.get(5..stroke)?).ok()?;
        let values: Option<Vec<u64>> = numbers.split(',').skip(1).map(|n| n.parse().ok()).collect();
        let (values, texts) = (values?, self.bytes(stroke + 1)?);
        let possible =
            length <= LONGEST_SLICE && values.len() <= MOST_VALUES && texts.len() <= MOST_TEXTS;
        possible.then_some(Command::Build {
            record,
            length,
            values,
            texts,
        })
    }

    fn lending(&self) -> Option<Command> {
        let (words, answer) = (self.number(2, 3)? as usize, self.number(4, 4)? as usize);
        let possible = words <= Lent::MOST.words && answer <= Lent::MOST.answer;
        possible.then_some(Command::Lend(Lent { words, answer }))
    }
}

#[cfg(test)]
mod tests {
    use super::*;

    const LENT: Room = Room {
        ids: 4,
        employers: 3,
    };

    fn state() -> State {
        State {
            format: Format::Pfml,
            standing: Standing::Refused(Refusal::new(44, 3, 6)),
            held: Quarter::new(2026, 6),
            quarter_of_a: Quarter::new(2025, 12),
            lines_read: 231_074,
            employers: 3,
            s: 7,
            cents: 9_999_999_999_999_900_000,
            open: OpenE {
                fein: 12_345_678,
                says_s_follow: true,
                s: 2,
                cents: 300,
                ids_in_use: 1,
                more: MoreOfE::default(),
            },
            more: MoreOfFile::default(),
        }
    }

    /// Typed by hand from the description above.
    #[test]
    fn commands_as_text() {
        let held = Quarter::new(2026, 6);
        let bytes = b"A\n".to_vec();
        let altered = Alteration {
            id_at: 1,
            id: 4_294_967_295,
            entry_at: 99,
            entry: Entry::plain(7, 8, 9).of_kind(10, 11, 9_999_999_999),
        };
        for (command, text) in [
            (Command::Open { format: 0, held, lent: LENT }, "O0000000000000000000002026060403"),
            (
                Command::Open { format: u64::MAX, held, lent: LENT },
                "O1844674407370955161502026060403",
            ),
            (Command::End { lent: LENT }, "E0403"),
            (Command::Beyond { more: 2, bytes: bytes.clone() }, "X2|A\n"),
            (Command::Line { lent: LENT, bytes: Vec::new() }, "L0403|"),
            (Command::Write { record: Written::T, length: 290 }, "RT290"),
            (Command::Write { record: Written::F, length: 1 }, "RF001"),
            (
                Command::WriteWham {
                    record: Written::T,
                    length: 275,
                    given: Given { payments: 100_050, total: u64::MAX },
                },
                "HT2750000000000000010005018446744073709551615",
            ),
            (
                Command::WriteWham { record: Written::F, length: 0, given: Given::default() },
                "HF000",
            ),
            (Command::Frames { entries: 3, length: 105 }, "F03105"),
            (Command::Word { at: 10, number: u64::MAX }, "N1018446744073709551615"),
            (
                Command::Build {
                    record: Built::S,
                    length: 290,
                    values: vec![0, u64::MAX, 3],
                    texts: b"a|\n".to_vec(),
                },
                "BS290,0,18446744073709551615,3|a|\n",
            ),
            (
                Command::Build {
                    record: Built::A,
                    length: 7,
                    values: vec![],
                    texts: vec![],
                },
                "BA007|",
            ),
            (
                Command::Field {
                    letter: b'E',
                    field: 27,
                    line: b"E2".to_vec(),
                },
                "GE00000000000000000027|E2",
            ),
            (Command::Lend(Lent { words: 5, answer: 0 }), "K050"),
            (
                Command::Whole { format: 9, held, lent: LENT, bytes },
                "W0000000000000000000902026060403|A\n",
            ),
            (
                Command::Tables(altered),
                "T01429496729599000000000700000000080000000000000000009\
                 000000001000000000119999999999",
            ),
            (
                Command::State(state()),
                "S6440000000003000060000231074020260602025120012345678100000000020000000000000000300\
                 0000000007000000000399999999999999000000000000001",
            ),
        ] {
            assert_eq!(String::from_utf8(command.text()).unwrap(), text);
            assert_eq!(Command::read(text.as_bytes()), Some(command));
        }
    }

    #[test]
    fn numbers_that_the_language_has_not() {
        let mut text = Command::State(state()).text();
        for (digits, number) in [
            (b"99", 83),
            (b"45", 83),
            (b"80", 80),
            (b"73", 73),
            (b"01", 1),
        ] {
            text[2..4].copy_from_slice(digits);
            let Some(Command::State(read)) = Command::read(&text) else {
                panic!("it is a state");
            };
            assert_eq!(read.standing, Standing::Refused(Refusal::new(number, 3, 6)));
        }
        assert_eq!(Command::read(b""), None);
        assert_eq!(Command::read(b"Q0403"), None);
        assert_eq!(Command::read(b"E040"), None);
        assert_eq!(Command::read(b"RS290"), None);
        assert_eq!(Command::read(b"RT301"), None);
        assert_eq!(Command::read(b"RT29"), None);
        assert_eq!(Command::read(b"HS275"), None);
        assert_eq!(Command::read(b"HT275"), None);
        assert_eq!(Command::read(b"HF301"), None);
        assert_eq!(Command::read(b"F03701"), None);
        assert_eq!(Command::read(b"BT290|"), None);
        assert_eq!(Command::read(b"BA301|"), None);
        assert_eq!(Command::read(b"BA290,|"), None);
        assert_eq!(Command::read(b"BA290,1"), None);
        assert_eq!(Command::read(b"GA0000000000000000000|"), None);
        assert_eq!(Command::read(b"K314"), None);
        assert_eq!(Command::read(b"K277"), None);
        assert_eq!(Command::read(b"O1844674407370955161602026060403"), None);
        assert_eq!(Command::read(b"O02026060403"), None);
        assert_eq!(Command::read(b"N0018446744073709551616"), None);
    }
}
