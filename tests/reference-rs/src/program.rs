//! What the program `tests/c/calls.c` does with a script: it keeps the words of a state, an id table
//! of 40 numbers and an employer list of 12 entries from command to command, and prints each answer
//! with all that the call leaves. A call that writes or builds a record, or writes frames, leaves
//! state and tables as they are, so its answer is printed with the slice alone; and one that reads a
//! field leaves everything.

use crate::build::{self, Built};
use crate::calendar::Quarter;
use crate::command::{Alteration, Command, Lent};
use crate::edits::Refusal;
use crate::exports;
use crate::format::Format;
use crate::frames;
use crate::meaning::{Entry, Room};
use crate::tables::Tables;
use crate::walk::{Answer, LineAnswer, State};
use crate::wham::{self, write::Given};
use crate::words::{state_in, words_of, Words, COUNT};
use crate::write::Written;

/// The tables that it keeps.
pub const KEPT: Room = Room {
    ids: 40,
    employers: 12,
};

/// The list that `X` is lent, and what stands in each of its entries.
const LONG_LIST: usize = 65_540;
const LONG_LIST_ENTRY: Entry = Entry::plain(7, 8, 9).of_kind(10, 11, 12);
/// `X` prints the entries from this one on.
const LONG_LIST_TOLD_FROM: usize = 65_534;

/// The state of `X` has so many employers, or one or two more.
pub const MANY_EMPLOYERS: u64 = 65_535;

/// The word of the employers.
const EMPLOYERS: usize = 14;

/// What stands in each byte of the slice that `R`, `H`, `F` or `B` lends.
const UNWRITTEN: u8 = b'.';

/// What is told for a word of the answer that is not lent.
const UNTOLD: u64 = 999;

pub struct Program {
    pub words: Words,
    pub tables: Tables,
    pub lent: Lent,
}

/// Number, line, column and bytes.
type Reply = [u64; 4];

/// What a call answers, and the line that is printed for it.
pub struct Told {
    pub number: u8,
    pub line: Vec<u8>,
}

impl Program {
    /// It starts as if a walk had been opened with a quarter of zeros.
    pub fn new() -> Program {
        Program {
            words: words_of(&State::opened(Quarter::default())),
            tables: Tables::zero(KEPT),
            lent: Lent::ENOUGH,
        }
    }

    /// Does what a command says; those that call print a line.
    pub fn run(&mut self, command: &Command) -> Option<Told> {
        match command {
            Command::Open { format, held, lent } => {
                let format = Format::named(*format);
                Some(self.opening(*lent, |ids, list| exports::open(format, *held, ids, list)))
            }
            Command::Whole {
                format,
                held,
                lent,
                bytes,
            } => {
                let format = Format::named(*format);
                Some(self.opening(*lent, |ids, list| {
                    exports::whole(format, *held, ids, list, bytes)
                }))
            }
            Command::Line { lent, bytes } => Some(self.call(*lent, |state, ids, list| {
                exports::line(state, ids, list, bytes)
            })),
            Command::End { lent } => Some(self.call(*lent, |state, ids, list| {
                no_line(exports::end(state, ids, list))
            })),
            Command::Beyond { more, bytes } => Some(self.beyond(*more, bytes)),
            _ => self.leaving_all(command).or_else(|| {
                self.set(command);
                None
            }),
        }
    }

    /// The calls that leave state and tables as they are; none if it is no call.
    fn leaving_all(&self, command: &Command) -> Option<Told> {
        Some(match command {
            Command::Write { record, length } => self.write(*record, *length),
            Command::WriteWham {
                record,
                length,
                given,
            } => self.write_wham(*record, *length, *given),
            Command::Frames { entries, length } => self.frames(*entries, *length),
            Command::Build {
                record,
                length,
                values,
                texts,
            } => self.build(*record, *length, values, texts),
            Command::Field {
                letter,
                field,
                line,
            } => self.field(*letter, *field, line),
            _ => return None,
        })
    }

    /// The commands that alter what is kept, or what is lent.
    fn set(&mut self, command: &Command) {
        match command {
            Command::State(state) => self.words = words_of(state),
            Command::Word { at, number } => {
                if let Some(word) = self.words.get_mut(*at) {
                    *word = *number;
                }
            }
            Command::Tables(altered) => self.alter(altered),
            Command::Lend(lent) => self.lent = *lent,
            _ => unreachable!("it is a call"),
        }
    }

    /// The words of the state that a call is lent.
    fn lent_words<'a>(&self, words: &'a Words) -> &'a [u64] {
        &words[..self.lent.words.min(COUNT)]
    }

    /// A call that needs no state, and has to have room for one: else 72, and nothing is touched.
    fn opening(
        &mut self,
        lent: Room,
        call: impl Fn(&mut [u32], &mut [Entry]) -> (State, Answer),
    ) -> Told {
        if self.lent.words < COUNT {
            return self.told([72, 0, 0, 0]);
        }
        let (ids, list) = self.tables.lend(lent);
        let (state, answer) = call(ids, list);
        self.words = words_of(&state);
        self.told(reply(no_line(answer)))
    }

    fn call(
        &mut self,
        lent: Room,
        call: impl Fn(&mut State, &mut [u32], &mut [Entry]) -> LineAnswer,
    ) -> Told {
        let mut state = state_in(self.lent_words(&self.words));
        let (ids, list) = self.tables.lend(lent);
        let reply = reply(call(&mut state, ids, list));
        put_back(reply, &state, &mut self.words);
        self.told(reply)
    }

    fn told(&self, reply: Reply) -> Told {
        let ids = printed_ids(&self.tables.ids);
        let entries = printed_entries(&self.tables.list);
        self.told_with(reply, &self.words, format!("|{ids}|{entries}"))
    }

    /// Number, line, column and bytes taken; the state; then the tables.
    fn told_with(&self, reply: Reply, words: &Words, tables: String) -> Told {
        let (told, words) = (printed(&self.answered(reply)), printed(words));
        Told {
            number: reply[0] as u8,
            line: format!("{told}|{words}{tables}\n").into_bytes(),
        }
    }

    /// The answer's words as far as they are lent; the number is returned as well.
    fn answered(&self, reply: Reply) -> Reply {
        let mut told = reply;
        for word in told.iter_mut().skip(self.lent.answer.max(1)) {
            *word = UNTOLD;
        }
        told
    }

    /// What it leaves is not kept.
    fn beyond(&self, more: u64, bytes: &[u8]) -> Told {
        let mut words = self.words;
        words[EMPLOYERS] = MANY_EMPLOYERS + more.min(2);
        let mut state = state_in(self.lent_words(&words));
        let mut ids = [0; KEPT.ids];
        let mut list = vec![LONG_LIST_ENTRY; LONG_LIST];
        let reply = reply(exports::line(&mut state, &mut ids, &mut list, bytes));
        put_back(reply, &state, &mut words);
        let entries = printed_entries(&list[LONG_LIST_TOLD_FROM..]);
        self.told_with(reply, &words, format!("|{entries}"))
    }

    /// Number, line and column; then the slice.
    fn write(&self, record: Written, length: usize) -> Told {
        let mut slice = vec![UNWRITTEN; length];
        let state = state_in(self.lent_words(&self.words));
        let reply = reply(no_line(record.write(&state, &mut slice)));
        self.told_of_slice(reply, 3, &slice)
    }

    /// The same of a record of an amended withholding file.
    fn write_wham(&self, record: Written, length: usize, given: Given) -> Told {
        let mut slice = vec![UNWRITTEN; length];
        let state = state_in(self.lent_words(&self.words));
        let answer = wham::write::write(record, &state, given, &mut slice);
        self.told_of_slice(reply(no_line(answer)), 3, &slice)
    }

    /// The same with the bytes written in front of the buffer.
    fn frames(&self, entries: usize, length: usize) -> Told {
        let mut buffer = vec![UNWRITTEN; length];
        let state = state_in(self.lent_words(&self.words));
        let list = &self.tables.list[..entries.min(KEPT.employers)];
        let reply = match frames::write(&state, list, &mut buffer) {
            Ok(written) => [0, 0, 0, written as u64],
            Err(number) => [number.into(), 0, 0, 0],
        };
        self.told_of_slice(reply, 4, &buffer)
    }

    /// Number, line and column; then the slice.
    fn build(&self, record: Built, length: usize, values: &[u64], texts: &[u8]) -> Told {
        let mut slice = vec![UNWRITTEN; length];
        let reply = reply(no_line(record.build(values, texts, &mut slice)));
        self.told_of_slice(reply, 3, &slice)
    }

    /// Number, line, column and the number read; then the length of the text and the first column.
    fn field(&self, letter: u8, field: u64, line: &[u8]) -> Told {
        let reply = match build::read_number(letter, field, line) {
            Ok(number) => [0, 0, 0, number],
            Err(column) => [30, 0, column, 0],
        };
        let text = build::text_length(letter, field, line);
        let told = printed(&self.answered(reply));
        let others = printed(&[text, build::first_column(letter, field)]);
        Told {
            number: reply[0] as u8,
            line: format!("{told}|{others}\n").into_bytes(),
        }
    }

    /// So many numbers of the answer; then the slice, byte for byte, LF as a slash.
    fn told_of_slice(&self, reply: Reply, numbers: usize, slice: &[u8]) -> Told {
        let told = printed(&self.answered(reply)[..numbers]);
        let slashed = |byte: &u8| if *byte == b'\n' { b'/' } else { *byte };
        let slice: Vec<u8> = slice.iter().map(slashed).collect();
        Told {
            number: reply[0] as u8,
            line: [told.as_bytes(), b"|", &slice, b"\n"].concat(),
        }
    }

    fn alter(&mut self, altered: &Alteration) {
        if let Some(id) = self.tables.ids.get_mut(altered.id_at) {
            *id = altered.id;
        }
        if let Some(entry) = self.tables.list.get_mut(altered.entry_at) {
            *entry = altered.entry;
        }
    }
}

/// The answer of a call that takes no bytes.
fn no_line(refusal: Answer) -> LineAnswer {
    LineAnswer { taken: 0, refusal }
}

fn reply(answer: LineAnswer) -> Reply {
    let refusal = answer.refusal.unwrap_or(Refusal::new(0, 0, 0));
    [
        refusal.number.into(),
        refusal.line,
        refusal.column,
        answer.taken as u64,
    ]
}

/// What a line or end call writes. "70: [...] each later line or end call answers 70 again and
/// touches nothing", "71: [...] nothing changed", "72: [...] nothing changed", and 73 as 70: then
/// no word.
fn put_back(reply: Reply, state: &State, words: &mut Words) {
    if !matches!(reply[0], 70..=73) {
        *words = words_of(state);
    }
}

/// A blank after each number.
fn printed(numbers: &[u64]) -> String {
    numbers.iter().map(|number| format!("{number} ")).collect()
}

/// Zeros at the end of a table are left out.
fn printed_ids(ids: &[u32]) -> String {
    let used = ids.iter().rposition(|id| *id != 0).map_or(0, |p| p + 1);
    let ids: Vec<String> = ids[..used].iter().map(u32::to_string).collect();
    ids.join(",")
}

fn printed_entries(list: &[Entry]) -> String {
    let none = Entry::default();
    let used = list.iter().rposition(|e| *e != none).map_or(0, |p| p + 1);
    let entries: Vec<String> = list[..used].iter().map(printed_entry).collect();
    entries.join(",")
}

/// Its six numbers, a colon between each two.
fn printed_entry(entry: &Entry) -> String {
    let (first, second) = (
        [entry.fein, entry.count, entry.cents],
        [entry.amended, entry.final_return, entry.cease_date],
    );
    let numbers = [first, second].concat();
    let numbers: Vec<String> = numbers.iter().map(u64::to_string).collect();
    numbers.join(":")
}

/// What the program prints for a whole script. What stands after the last end is no command.
pub fn run_script(script: &[u8]) -> Result<Vec<u8>, String> {
    let mut program = Program::new();
    let mut output = Vec::new();
    let mut texts: Vec<&[u8]> = script.split(|byte| *byte == b'#').collect();
    texts.pop();
    for (place, text) in texts.into_iter().enumerate() {
        let command = Command::read(text).ok_or(format!("command {place} is none"))?;
        if let Some(told) = program.run(&command) {
            output.extend(told.line);
        }
    }
    Ok(output)
}

#[cfg(test)]
mod tests {
    use super::*;
    use crate::draft::*;
    use crate::edits::Phase;
    use crate::walk::{OpenE, Standing};

    const QUARTER: Quarter = Quarter::new(2026, 3);
    const FEIN: u64 = 12_345_678;

    /// 5 as the second id, and an entry of 7, 8, 9, 10, 11 and 12 as the third; how such a list is
    /// told.
    const ALTERED: &str =
        "T01000000000502000000000700000000080000000000000000009000000001000000000110000000012";
    const THIRD_ALTERED: &str = "0:0:0:0:0:0,0:0:0:0:0:0,7:8:9:10:11:12";

    /// What is printed for these commands, each without its end.
    fn printed_for(commands: &[Vec<u8>]) -> Vec<String> {
        let script: Vec<u8> = commands
            .iter()
            .flat_map(|c| [&c[..], b"#"].concat())
            .collect();
        let output = String::from_utf8(run_script(&script).unwrap()).unwrap();
        output.lines().map(str::to_string).collect()
    }

    fn command(text: &str) -> Vec<u8> {
        text.as_bytes().to_vec()
    }

    fn with_line(text: &str, line: Vec<u8>, end: &[u8]) -> Vec<u8> {
        [text.as_bytes(), &line, end].concat()
    }

    /// Everything here, and in the tests below, is typed by hand from the paper. The return is both
    /// amended and final.
    #[test]
    fn a_walk_that_is_accepted() {
        let mut e = record_e(QUARTER, FEIN, true, &AUGUSTA);
        put(&mut e, 187, b"1");
        put_final(&mut e, 3_312_026);
        let printed = printed_for(&[
            command("E0403"),
            command("O0000000000000000000002026060201"),
            with_line("L0201|", record_a(QUARTER, 1, &AUGUSTA), b"\n"),
            with_line("L0201|", e, b"\r\nE"),
            with_line(
                "L0201|",
                record_s(QUARTER, FEIN, 111_111_111, 123_456),
                b"\r",
            ),
            with_line("L0201|", record_s(QUARTER, FEIN, 0, 44), b"\n\r"),
            with_line("L0101|", record_t(FEIN, 2, 123_500), b"\n"),
            with_line("L0001|", record_f(2, 1, 123_500), b"\n"),
            command("E0001"),
            command("E0001"),
            command("L0000|"),
        ]);
        let wanted = [
            "72 0 0 0 |0 0 0 0 0 0 0 0 0 0 0 0 0 0 0 0 0 0 0 0 0 0 0 0 0 0 0 ||",
            "0 0 0 0 |0 0 0 0 0 2026 6 0 0 0 0 0 0 0 0 0 0 0 0 0 0 0 0 0 0 0 0 ||",
            "0 0 0 291 |1 0 0 0 1 2026 6 2026 3 0 0 0 0 0 0 0 0 0 0 0 0 0 0 0 0 0 0 ||",
            "0 0 0 292 |2 0 0 0 2 2026 6 2026 3 12345678 1 0 0 0 1 0 0 0 0 0 0 0 0 0 0 0 0 \
             ||12345678:0:0:1:1:3312026",
            "0 0 0 291 |2 0 0 0 3 2026 6 2026 3 12345678 1 1 123456 1 1 123456 1 0 0 0 0 0 0 0 0 0 0 \
             |111111111|12345678:0:0:1:1:3312026",
            "0 0 0 291 |2 0 0 0 4 2026 6 2026 3 12345678 1 2 123500 2 1 123500 1 0 0 0 0 0 0 0 0 0 0 \
             |111111111|12345678:0:0:1:1:3312026",
            "0 0 0 291 |3 0 0 0 5 2026 6 2026 3 0 0 0 0 2 1 123500 0 0 0 0 0 0 0 0 0 0 0 ||12345678:2:123500:1:1:3312026",
            "0 0 0 291 |4 0 0 0 6 2026 6 2026 3 0 0 0 0 2 1 123500 0 0 0 0 0 0 0 0 0 0 0 ||12345678:2:123500:1:1:3312026",
            "0 0 0 0 |5 0 0 0 6 2026 6 2026 3 0 0 0 0 2 1 123500 0 0 0 0 0 0 0 0 0 0 0 ||12345678:2:123500:1:1:3312026",
            "71 0 0 0 |5 0 0 0 6 2026 6 2026 3 0 0 0 0 2 1 123500 0 0 0 0 0 0 0 0 0 0 0 ||12345678:2:123500:1:1:3312026",
            // The list is lent too short for the one employer.
            "72 0 0 0 |5 0 0 0 6 2026 6 2026 3 0 0 0 0 2 1 123500 0 0 0 0 0 0 0 0 0 0 0 ||12345678:2:123500:1:1:3312026",
        ];
        assert_eq!(printed, wanted);
    }

    /// The open E of the paper's example, with so many S records and cents.
    fn example_of(phase: Phase, s: u64, cents: u64) -> Vec<u8> {
        let state = State {
            standing: Standing::Among(phase),
            quarter_of_a: QUARTER,
            lines_read: 5,
            employers: 1,
            s,
            cents,
            open: OpenE {
                fein: FEIN,
                says_s_follow: true,
                s,
                cents,
                ids_in_use: 2,
                ..OpenE::default()
            },
            ..State::opened(QUARTER)
        };
        Command::State(state).text()
    }

    #[test]
    fn records_written() {
        let printed = printed_for(&[
            command("RT290"),
            example_of(Phase::EOpen, 0, 0),
            command("RT290"),
            command("RF005"),
            command("RF290"),
            example_of(Phase::EOpen, 2, 123_500),
            command("RT290"),
            example_of(Phase::AfterT, 2, 123_500),
            command("RF290"),
            command("RF000"),
            // The list is lent too short, so that all is told as it stayed.
            command("E0000"),
        ]);
        let stops = ".".repeat(290);
        let t = "T0000002PFML012345678     00000000123500";
        let f = "F00000000020000000001PFML               000000000123500";
        let wanted = [
            format!("72 0 0 |{stops}"),
            format!("81 0 0 |{stops}"),
            "83 0 0 |.....".to_string(),
            format!("80 0 0 |{stops}"),
            format!("0 0 0 |{t}{}", " ".repeat(250)),
            format!("0 0 0 |{f}{}", " ".repeat(235)),
            "83 0 0 |".to_string(),
            "72 0 0 0 |3 0 0 0 5 2026 3 2026 3 12345678 1 2 123500 2 1 123500 2 0 0 0 0 0 0 0 0 0 0 ||".to_string(),
        ];
        assert_eq!(printed, wanted);
    }

    /// Words that tell no walk, a flag of 2, a line that is too large; and what is lent short.
    #[test]
    fn words_and_what_is_lent() {
        let printed = printed_for(&[
            command("O0000000000000000000002026060403"),
            command("N0000000000000000000007"),
            command("E0403"),
            command("RT005"),
            command("N0000000000000000000006"),
            command("N0100000000000000000009"),
            command("L0403|"),
            command("N0100000000000000000044"),
            command("N0200000000004294967299"),
            command("N1000000000000000000002"),
            command("K301"),
            command("E0403"),
            command("F00018"),
            command("K260"),
            command("E0403"),
            command("O0000000000000000000002026060403"),
            command("F00017"),
            command("K274"),
            command("F00016"),
        ]);
        let refused = "6 44 4294967295 0 0 2026 6 0 0 0 1 0 0 0 0 0 0 0 0 0 0 0 0 0 0 0 0 ||";
        let wanted = [
            "0 0 0 0 |0 0 0 0 0 2026 6 0 0 0 0 0 0 0 0 0 0 0 0 0 0 0 0 0 0 0 0 ||".to_string(),
            "72 0 0 0 |7 0 0 0 0 2026 6 0 0 0 0 0 0 0 0 0 0 0 0 0 0 0 0 0 0 0 0 ||".to_string(),
            "72 0 0 |.....".to_string(),
            "72 0 0 0 |6 9 0 0 0 2026 6 0 0 0 0 0 0 0 0 0 0 0 0 0 0 0 0 0 0 0 0 ||".to_string(),
            format!("44 999 999 999 |{refused}"),
            "0 999 999 999 |FF2CFFFFFFFF0000/.".to_string(),
            format!("72 999 999 999 |{refused}"),
            format!("72 999 999 999 |{refused}"),
            "72 999 999 999 |.................".to_string(),
            "88 0 0 0 |................".to_string(),
        ];
        assert_eq!(printed, wanted);
    }

    /// 70 again touches no word, those that are read as others among them; an opening writes all.
    #[test]
    fn bad_quarter_again() {
        let printed = printed_for(&[
            command("O0000000000000000000002026050403"),
            command("N0200000000004294967299"),
            command("N1000000000000000000002"),
            command("L0403|"),
            command("E0403"),
            command("O0000000000000000000002026050403"),
        ]);
        let opened = "70 0 0 0 |6 70 0 0 0 0 0 0 0 0 0 0 0 0 0 0 0 0 0 0 0 0 0 0 0 0 0 ||";
        let altered =
            "70 4294967295 0 0 |6 70 4294967299 0 0 0 0 0 0 0 2 0 0 0 0 0 0 0 0 0 0 0 0 0 0 0 0 ||";
        assert_eq!(printed, [opened, altered, altered, opened]);
    }

    /// 72, 70 and 73 in their order; 73 again touches nothing, and a state of no format that was not
    /// refused by an opening is unfit.
    #[test]
    fn no_format() {
        let printed = printed_for(&[
            command(ALTERED),
            command("O0000000000000000000902025090403"),
            command("L0403|A\n"),
            command("E0403"),
            command("F00017"),
            command("RT003"),
            command("O0000000000000000000902025050403"),
            command("O0000000000000000000002025050403"),
            command("O1844674407370955161502025090403"),
            command("N1700000000000000000009"),
            command("N2100000000000000000002"),
            command("E0403"),
            command("N0100000000000000000044"),
            command("E0403"),
            command("K264"),
            command("O0000000000000000000902025050403"),
        ]);
        let tables = format!("|0,5|{THIRD_ALTERED}");
        let zeros = |count| "0 ".repeat(count);
        let opened = |number, format| {
            let (before, behind) = (zeros(15), zeros(9));
            format!("{number} 0 0 0 |6 {number} {before}{format} {behind}{tables}")
        };
        let altered = |answer, number| {
            let (before, behind) = (zeros(15), zeros(5));
            format!("{answer} 0 0 0 |6 {number} {before}9 0 0 0 2 {behind}{tables}")
        };
        let wanted = [
            opened(73, 255),
            opened(73, 255),
            opened(73, 255),
            "0 0 0 17 |FF49000000000000/".to_string(),
            "83 0 0 |...".to_string(),
            opened(70, 255),
            opened(70, 0),
            opened(73, 255),
            altered(73, 73),
            altered(72, 44),
            altered(72, 44),
        ];
        assert_eq!(printed, wanted);
    }

    /// Words that PFML does not use: an S keeps them, a T sets the open E's to zero, a refusal all.
    #[test]
    fn words_that_are_not_used() {
        let filled: Vec<Vec<u8>> = (18..27)
            .map(|at| command(&format!("N{at}{at:020}")))
            .collect();
        let commands = [
            vec![example_of(Phase::EOpen, 2, 123_500)],
            filled,
            vec![
                with_line("L0301|", record_s(QUARTER, FEIN, 0, 0), b"\n"),
                with_line("L0301|", record_t(FEIN, 3, 123_500), b"\n"),
                command("L0301|"),
            ],
        ];
        let printed = printed_for(&commands.concat());
        let wanted = [
            "0 0 0 291 |2 0 0 0 6 2026 3 2026 3 12345678 1 3 123500 3 1 123500 2 \
             0 18 19 20 1 22 23 24 25 26 ||",
            "0 0 0 291 |3 0 0 0 7 2026 3 2026 3 0 0 0 0 3 1 123500 0 \
             0 0 0 0 0 0 0 24 25 26 ||0:3:123500:0:0:0",
            "1 8 1 0 |6 1 8 1 0 0 0 0 0 0 0 0 0 0 0 0 0 0 0 0 0 0 0 0 0 0 0 ||",
        ];
        assert_eq!(printed, wanted);
    }

    /// Both tables are zeroed as far as they are lent, again with each call; 70 touches nothing.
    #[test]
    fn refusals() {
        let altered = ALTERED;
        let printed = printed_for(&[
            command("O0000000000000000000002026060403"),
            command(altered),
            command("L0403|A\n"),
            command(altered),
            command("L0102|"),
            command("E0403"),
            command(altered),
            command("O0000000000000000000002026050403"),
            command("E0403"),
            command("W0000000000000000000002026060200|"),
        ]);
        let refused = "1 1 2 0 |6 1 1 2 0 0 0 0 0 0 0 0 0 0 0 0 0 0 0 0 0 0 0 0 0 0 0 ";
        let bad_quarter = "70 0 0 0 |6 70 0 0 0 0 0 0 0 0 0 0 0 0 0 0 0 0 0 0 0 0 0 0 0 0 0 ";
        let wanted = [
            "0 0 0 0 |0 0 0 0 0 2026 6 0 0 0 0 0 0 0 0 0 0 0 0 0 0 0 0 0 0 0 0 ||".to_string(),
            format!("{refused}||"),
            // The second id and the third entry are not lent.
            format!("{refused}|0,5|{THIRD_ALTERED}"),
            format!("{refused}||"),
            format!("{bad_quarter}|0,5|{THIRD_ALTERED}"),
            format!("{bad_quarter}|0,5|{THIRD_ALTERED}"),
            format!(
                "5 1 1 0 |6 5 1 1 0 0 0 0 0 0 0 0 0 0 0 0 0 0 0 0 0 0 0 0 0 0 0 ||{THIRD_ALTERED}"
            ),
        ];
        assert_eq!(printed, wanted);
    }

    /// An E after 65,535 employers takes the last entry that is used; after one more there is
    /// none, and two more are too many. Every entry has the FEIN 7.
    #[test]
    fn employers_beyond() {
        let state = State {
            standing: Standing::Among(Phase::AfterT),
            quarter_of_a: QUARTER,
            lines_read: 9,
            s: 2,
            cents: 300,
            ..State::opened(Quarter::new(2026, 6))
        };
        let e = |more: &str, fein| {
            let line = record_e(QUARTER, fein, false, &AUGUSTA);
            with_line(&format!("X{more}|"), line, b"\n")
        };
        let state = Command::State(state).text();
        let printed = printed_for(&[state, e("0", 8), e("0", 7), e("1", 8), e("2", 8)]);
        let entry = "7:8:9:10:11:12";
        let (one, four, six) = (entry, [entry; 4].join(","), [entry; 6].join(","));
        let wanted = [
            format!(
                "0 0 0 291 |2 0 0 0 10 2026 6 2026 3 8 0 0 0 2 65536 300 0 0 0 0 0 0 0 0 0 0 0 \
                 |{one},8:0:0:0:0:0,{four}"
            ),
            "45 10 6 0 |6 45 10 6 0 0 0 0 0 0 0 0 0 0 0 0 0 0 0 0 0 0 0 0 0 0 0 |".to_string(),
            "63 10 6 0 |6 63 10 6 0 0 0 0 0 0 0 0 0 0 0 0 0 0 0 0 0 0 0 0 0 0 0 |".to_string(),
            format!("72 0 0 0 |3 0 0 0 9 2026 6 2026 3 0 0 0 0 2 65537 300 0 0 0 0 0 0 0 0 0 0 0 |{six}"),
        ];
        assert_eq!(printed, wanted);
    }
}
