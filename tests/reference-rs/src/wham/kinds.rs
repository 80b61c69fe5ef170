//! What accepted files have to show among them: shapes that a product could refuse by mistake, or
//! never be tried with.

use super::draft::IGNORED;
use crate::draft::Line;
use crate::lines::lines_of;
use std::collections::HashSet;

type Shows = fn(&[Line]) -> bool;

/// Each kind with how it is told from the lines of an accepted file.
const KINDS: [(&str, Shows); 20] = [
    ("an E saying 0 without T, closed by an E", |lines| {
        closed_without_t(lines, b'E')
    }),
    ("an E saying 0 without T, closed by F", |lines| {
        closed_without_t(lines, b'F')
    }),
    ("an E saying 0 with a T", |lines| {
        any_return(lines, |r| says_0(r) && ends_with_t(r))
    }),
    ("an R under an E saying 0", |lines| {
        any_return(lines, |r| says_0(r) && has(r, b'R'))
    }),
    ("an R before the S records", |lines| {
        any_return(lines, |r| orders(r).0)
    }),
    ("an R among the S records", |lines| {
        any_return(lines, |r| orders(r).1)
    }),
    ("an R after the S records", |lines| {
        any_return(lines, |r| orders(r).2)
    }),
    ("no S record at all", |lines| !has(lines, b'S')),
    ("a negative amount in T 123-136", |lines| {
        any_due(lines, |due| due[0] == b'-' && !is_zero(due))
    }),
    ("minus zero in T 123-136", |lines| {
        any_due(lines, |due| due[0] == b'-' && is_zero(due))
    }),
    ("the same FEIN twice", |lines| {
        is_twice(lines, b'E', (6, 14))
    }),
    ("the same identity number twice under an E", |lines| {
        any_return(lines, has_number_twice)
    }),
    ("zeros as FEIN in A", |lines| fein_of_zeros(lines, b'A')),
    ("zeros as FEIN in E", |lines| fein_of_zeros(lines, b'E')),
    ("an account with a blank within", |lines| {
        any_account(lines, |text| text.contains(&b' '))
    }),
    ("an account with small letters", |lines| {
        any_account(lines, |text| text.iter().any(u8::is_ascii_lowercase))
    }),
    ("small letters everywhere", has_no_capital),
    ("something in all ignored columns", |lines| {
        all_ignored(lines, |c| *c != b' ')
    }),
    ("blanks in all ignored columns", |lines| {
        all_ignored(lines, |c| *c == b' ')
    }),
    ("all three line ends", has_three_ends),
];

pub fn names() -> Vec<&'static str> {
    KINDS.iter().map(|(name, _)| *name).collect()
}

/// Which of the kinds an accepted file is, by their places.
pub fn of(file: &[u8]) -> Vec<usize> {
    let mut rest = file;
    let mut lines = Vec::new();
    for cut in lines_of(file) {
        let (line, behind) = rest.split_at(cut.taken());
        lines.push(Line::new(cut.text.to_vec(), &line[cut.text.len()..]));
        rest = behind;
    }
    let shows = |place: &usize| (KINDS[*place].1)(&lines);
    (0..KINDS.len()).filter(shows).collect()
}

fn has(lines: &[Line], letter: u8) -> bool {
    lines.iter().any(|line| line.letter() == letter)
}

/// Whether some E, with the lines up to the next E or F, is as asked.
fn any_return(lines: &[Line], asked: fn(&[Line]) -> bool) -> bool {
    let mut starts = (0..lines.len()).filter(|place| lines[*place].letter() == b'E');
    starts.any(|start| {
        let behind = &lines[start + 1..];
        let length = behind
            .iter()
            .take_while(|l| !b"EF".contains(&l.letter()))
            .count();
        asked(&lines[start..=start + length])
    })
}

fn says_0(lines: &[Line]) -> bool {
    lines[0].columns(190, 190) == b"0"
}

fn ends_with_t(lines: &[Line]) -> bool {
    lines.last().is_some_and(|line| line.letter() == b'T')
}

/// A return without T, right before a line of this letter.
fn closed_without_t(lines: &[Line], letter: u8) -> bool {
    let is_closed = |two: &[Line]| {
        let (before, behind) = (two[0].letter(), two[1].letter());
        b"ESR".contains(&before) && behind == letter
    };
    lines.windows(2).any(is_closed)
}

/// Whether R records stand before, among and after the S records of a return.
fn orders(lines: &[Line]) -> (bool, bool, bool) {
    let places = |letter| (0..lines.len()).filter(move |p| lines[*p].letter() == letter);
    let (Some(first), Some(last)) = (places(b'S').next(), places(b'S').next_back()) else {
        return (false, false, false);
    };
    let any = |asked: &dyn Fn(usize) -> bool| places(b'R').any(asked);
    (
        any(&|p| p < first),
        any(&|p| first < p && p < last),
        any(&|p| p > last),
    )
}

fn any_due(lines: &[Line], asked: fn(&[u8]) -> bool) -> bool {
    let mut totals = lines.iter().filter(|line| line.letter() == b'T');
    totals.any(|line| asked(&line.columns(123, 136)))
}

fn is_zero(due: &[u8]) -> bool {
    due[1..].iter().all(|c| *c == b'0')
}

/// Whether two records of a letter have the same number, which is not zero.
fn is_twice(lines: &[Line], letter: u8, (first, last): (usize, usize)) -> bool {
    let mut seen = HashSet::new();
    let records = lines.iter().filter(|line| line.letter() == letter);
    let mut numbers = records.map(|line| line.value(first, last));
    numbers.any(|number| number != 0 && !seen.insert(number))
}

fn has_number_twice(lines: &[Line]) -> bool {
    is_twice(lines, b'S', (2, 10))
}

fn fein_of_zeros(lines: &[Line], letter: u8) -> bool {
    let mut records = lines.iter().filter(|line| line.letter() == letter);
    records.any(|line| line.columns(6, 14) == b"000000000")
}

/// Whether some E and an S under it have such an account, without the blanks at its end; as the E
/// writes it.
fn any_account(lines: &[Line], asked: fn(&[u8]) -> bool) -> bool {
    let is_e_and_s = |two: &[Line]| two[0].letter() == b'E' && two[1].letter() == b'S';
    let account = |e: &Line| asked(e.text[257..268].trim_ascii_end());
    lines
        .windows(2)
        .any(|two| is_e_and_s(two) && account(&two[0]))
}

fn has_no_capital(lines: &[Line]) -> bool {
    let mut texts = lines.iter().flat_map(|line| &line.text);
    !texts.any(u8::is_ascii_uppercase)
}

/// Whether the ignored columns of all lines are as asked.
fn all_ignored(lines: &[Line], asked: fn(&u8) -> bool) -> bool {
    lines.iter().all(|line| {
        let is_own = |(letter, _, _): &&(u8, usize, usize)| *letter == line.letter();
        let mut own = IGNORED.iter().filter(is_own);
        own.all(|(_, first, last)| line.text[first - 1..*last].iter().all(asked))
    })
}

fn has_three_ends(lines: &[Line]) -> bool {
    let ends: HashSet<&[u8]> = lines.iter().map(|line| &line.end[..]).collect();
    ends.len() == 3
}
