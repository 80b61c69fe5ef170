//! The S records: most lines of a file. All columns are looked at in steps of sixteen, over many lines, and only then it
//! is asked whether any was not as it has to be.

use crate::ids::Ids;
use crate::input;
use crate::lanes::*;
use std::arch::asm;

/// A line, CR and LF.
pub const LONGEST_LINE: usize = 292;

/// What the columns of S have to hold under an E: those that are the same for all its S records.
pub struct Pattern {
    /// From column 43: blanks, and the first digit of the period.
    period: u32,
    /// From column 46: period, year, blanks.
    quarter: [u8; 16],
    /// From column 142: a blank, entity code, FEIN, blanks.
    employer: [u8; 16],
}

impl Pattern {
    pub const fn new() -> Pattern {
        Pattern {
            period: 0,
            quarter: [0; 16],
            employer: [0; 16],
        }
    }

    pub fn of(period: &[u8; 2], year: &[u8; 4], fein: &[u8; 9]) -> Pattern {
        let mut quarter = [b' '; 16];
        quarter[..2].copy_from_slice(period);
        quarter[2..6].copy_from_slice(year);
        let mut employer = [b' '; 16];
        employer[1..5].copy_from_slice(b"PFML");
        employer[5..14].copy_from_slice(fein);
        Pattern {
            period: u32::from_le_bytes([b' ', b' ', b' ', period[0]]),
            quarter,
            employer,
        }
    }
}

/// From column 1: the identity number stands in columns 2 to 10. The others are looked at elsewhere.
const FRONT_LIMIT: [u8; 16] = [255, 9, 9, 9, 9, 9, 9, 9, 9, 9, 255, 255, 255, 255, 255, 255];
/// From column 62: two blanks, and wages.
const WAGES: [u8; 16] = *b"  00000000000000";
const WAGES_LIMIT: [u8; 16] = [0, 0, 9, 9, 9, 9, 9, 9, 9, 9, 9, 9, 9, 9, 9, 9];
/// Where the names begin: from column 11 on, and from column 27 on.
const FROM_11: [u8; 16] = name_begins_at(0);
const FROM_27: [u8; 16] = name_begins_at(31 - 27);
/// From column 142: small letters are read as capitals.
const EMPLOYER_LOOKED_AT: [u8; 16] = [
    255, 0xDF, 0xDF, 0xDF, 0xDF, 255, 255, 255, 255, 255, 255, 255, 255, 255, 255, 255,
];
/// Where sixteen blank columns begin, in bytes from 0; the last five columns are looked at with the end.
const BLANKS: [usize; 12] = [77, 157, 93, 173, 109, 189, 125, 205, 221, 237, 253, 269];
/// From column 284: the last columns and an end.
const ENDS_IN_LF: u64 = u64::from_le_bytes(*b"       \n");
const ENDS_IN_CR: u64 = u64::from_le_bytes(*b"       \r");

const fn name_begins_at(place: usize) -> [u8; 16] {
    let mut columns = [IN_NAME; 16];
    columns[place] = FIRST_IN_NAME;
    columns
}

/// The digits of a column are added up over the lines of a block in 16 bits.
const _: () = assert!(9 * (input::MOST / 291 + 2) < 65_536);

/// How many bytes the S record here takes; 0 if it does not begin and end as it has to.
#[inline(always)]
unsafe fn length(line: *const u8) -> usize {
    let tail = line.add(283).cast::<u64>().read_unaligned().to_le();
    if *line & 0xDF != b'S' {
        return 0;
    }
    if tail == ENDS_IN_LF {
        return 291;
    }
    if tail == ENDS_IN_CR {
        return 291 + usize::from(*line.add(291) == b'\n');
    }
    0
}

#[inline(always)]
unsafe fn constant(bytes: &[u8; 16]) -> Bytes {
    load(bytes.as_ptr())
}

/// What was found in the columns of some lines.
struct Found {
    front: Bytes,
    /// All ones where all are characters of a name.
    names: Bytes,
    period: u32,
    quarter: Bytes,
    wages: Bytes,
    employer: Bytes,
    /// Two, so that neither waits for the other.
    blanks: [Bytes; 2],
    /// Each digit of the wages added up.
    low: Words,
    high: Words,
    forbidden: bool,
}

impl Found {
    #[inline(always)]
    unsafe fn nothing() -> Found {
        let zero = splat(0);
        Found {
            front: zero,
            names: splat(255),
            period: 0,
            quarter: zero,
            wages: zero,
            employer: zero,
            blanks: [zero; 2],
            low: zero_words(),
            high: zero_words(),
            forbidden: false,
        }
    }

    /// Every column but the first and the last five.
    #[inline(always)]
    unsafe fn look(&mut self, line: *const u8, pattern: &Pattern) {
        self.front = most(self.front, xor(load(line), splat(b'0')));
        self.names = and(self.names, in_name(load(line.add(10)), constant(&FROM_11)));
        self.names = and(self.names, in_name(load(line.add(26)), constant(&FROM_27)));
        self.period |= line.add(42).cast::<u32>().read_unaligned().to_le() ^ pattern.period;
        self.quarter = or(
            self.quarter,
            xor(load(line.add(45)), constant(&pattern.quarter)),
        );
        self.employer = or(
            self.employer,
            xor(load(line.add(141)), constant(&pattern.employer)),
        );
        for (place, column) in BLANKS.into_iter().enumerate() {
            let blanks = &mut self.blanks[place % 2];
            *blanks = or(*blanks, xor(load(line.add(column)), splat(b' ')));
        }
        let wages = xor(load(line.add(61)), constant(&WAGES));
        self.wages = most(self.wages, wages);
        self.low = add_low(self.low, wages);
        self.high = add_high(self.high, wages);
    }

    unsafe fn is_fine(&self) -> bool {
        let front = above(self.front, constant(&FRONT_LIMIT));
        let names = xor(self.names, splat(255));
        let wages = above(self.wages, constant(&WAGES_LIMIT));
        let employer = and(self.employer, constant(&EMPLOYER_LOOKED_AT));
        let blanks = or(self.blanks[0], self.blanks[1]);
        let any = or(
            or(or(front, names), or(wages, employer)),
            or(self.quarter, blanks),
        );
        all_zero(any) && self.period == 0 && !self.forbidden
    }

    /// The sum of the wages; any number, if their columns do not hold digits.
    unsafe fn cents(&self) -> u64 {
        let (low, high) = (words(self.low), words(self.high));
        let columns = low.iter().chain(&high).map(|sum| u64::from(*sum));
        columns.fold(0, |cents: u64, sum| {
            cents.wrapping_mul(10).wrapping_add(sum)
        })
    }
}

/// The value of eight digits, each a byte of its own value, the first in the lowest.
#[inline(always)]
fn eight_digits(digits: u64) -> u32 {
    let pairs = digits.wrapping_mul(10).wrapping_add(digits >> 8) & 0x00FF_00FF_00FF_00FF;
    let fours = pairs.wrapping_mul(100).wrapping_add(pairs >> 16) & 0x0000_FFFF_0000_FFFF;
    fours.wrapping_mul(10_000).wrapping_add(fours >> 32) as u32
}

/// The same address, of which the compiler does not know that. It would take the digits out of a vector that holds them
/// already, and that takes longer than to load them once more.
#[inline(always)]
unsafe fn again(line: *const u8) -> *const u8 {
    let mut same = line;
    asm!("/* {0} */", inout(reg) same, options(pure, nomem, nostack, preserves_flags));
    same
}

/// The identity number; any number, if its columns do not hold digits.
#[inline(always)]
unsafe fn identity(line: *const u8) -> u32 {
    let line = again(line);
    let first = u32::from(*line.add(1) ^ b'0');
    let others = line.add(2).cast::<u64>().read_unaligned().to_le();
    first
        .wrapping_mul(100_000_000)
        .wrapping_add(eight_digits(others ^ 0x3030_3030_3030_3030))
}

/// "begins with 666 or 9", but for the ITINs that are issued.
#[inline(always)]
fn is_forbidden(id: u32) -> bool {
    id >= 900_000_000 && is_no_itin(id) || id.wrapping_sub(666_000_000) < 1_000_000
}

/// "its fourth and fifth digits are 50 to 65, 70 to 88, 90 to 92 or 94 to 99"
#[cold]
fn is_no_itin(id: u32) -> bool {
    !matches!(id / 10_000 % 100, 50..=65 | 70..=88 | 90..=92 | 94..=99)
}

/// S records, one right after the other.
pub struct Run {
    pub bytes: usize,
    pub lines: usize,
    pub cents: u64,
    fine: bool,
}

/// Looks at S records from the front of some bytes, no more than `room` has places, and writes their identity numbers
/// there. What it tells of lines that are not all fine means nothing.
#[inline(never)]
fn look(bytes: &[u8], pattern: &Pattern, room: &mut [u32]) -> Run {
    let (mut at, mut lines) = (0, 0);
    // Every load stays within the longest line.
    unsafe {
        let mut found = Found::nothing();
        while lines < room.len() && bytes.len() - at >= LONGEST_LINE {
            let line = bytes.as_ptr().add(at);
            let length = length(line);
            if length == 0 {
                break;
            }
            found.look(line, pattern);
            let id = identity(line);
            found.forbidden |= is_forbidden(id);
            room[lines] = id;
            at += length;
            lines += 1;
        }
        Run {
            bytes: at,
            lines,
            cents: found.cents(),
            fine: found.is_fine(),
        }
    }
}

/// Leaves out zeros; tells how many numbers are left.
fn without_zeros(ids: &mut [u32]) -> usize {
    let mut count = 0;
    for place in 0..ids.len() {
        ids[count] = ids[place];
        count += usize::from(ids[place] != 0);
    }
    count
}

/// Whether each number is greater than the one before it. No exit, so that several are looked at together.
fn rise(ids: &[u32]) -> bool {
    let pairs = ids.iter().zip(ids.iter().skip(1));
    pairs.fold(true, |rise, (one, next)| rise & (one < next))
}

fn has_zero(ids: &[u32]) -> bool {
    ids.iter().fold(false, |found, id| found | (*id == 0))
}

/// Takes S records from the front of some bytes, no more than so many, and not all that there are if room for identity
/// numbers runs out. None: some are not fine, and none is taken.
pub fn take(bytes: &[u8], most: usize, pattern: &Pattern, ids: &mut Ids) -> Option<Run> {
    let room = ids.room();
    let places = most.min(room.len());
    let run = look(bytes, pattern, &mut room[..places]);
    let new = &mut room[..run.lines];
    let rising = rise(new) && new.first() != Some(&0);
    let count = match !rising && has_zero(new) {
        true => without_zeros(new),
        false => run.lines,
    };
    let more = bytes.len() - run.bytes < LONGEST_LINE;
    (run.fine && ids.keep(count, rising, more)).then_some(run)
}
