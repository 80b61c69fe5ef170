//! The frames of an acknowledgement: "lines of hexadecimal in capitals, one frame a line, LF, numbers big-endian".

use crate::edits::Refusal;

/// "FEIN (4 bytes), S count (4), cents (8)", and "the flags (1 byte each) and the date (4 bytes)".
#[derive(Clone, Copy)]
pub struct Entry {
    pub fein: u32,
    pub count: u32,
    pub cents: u64,
    pub amended: u8,
    pub final_return: u8,
    pub cease_date: u32,
}

impl Entry {
    pub const NONE: Entry = Entry {
        fein: 0,
        count: 0,
        cents: 0,
        amended: 0,
        final_return: 0,
        cease_date: 0,
    };
}

const DIGITS: &[u8; 16] = b"0123456789ABCDEF";

/// Each byte as two digits.
static PAIRS: [[u8; 2]; 256] = {
    let mut pairs = [[0; 2]; 256];
    let mut byte = 0;
    while byte < 256 {
        pairs[byte] = [DIGITS[byte >> 4], DIGITS[byte & 15]];
        byte += 1;
    }
    pairs
};

fn put_line<const BYTES: usize>(out: &mut Vec<u8>, bytes: [u8; BYTES]) {
    let digits = bytes.map(|byte| PAIRS[usize::from(byte)]);
    out.extend_from_slice(digits.as_flattened());
    out.push(b'\n');
}

/// An employer's frame, 02.
pub fn put_entry(out: &mut Vec<u8>, entry: &Entry) {
    let mut bytes = [0x02; 23];
    bytes[1..5].copy_from_slice(&entry.fein.to_be_bytes());
    bytes[5..9].copy_from_slice(&entry.count.to_be_bytes());
    bytes[9..17].copy_from_slice(&entry.cents.to_be_bytes());
    bytes[17] = entry.amended;
    bytes[18] = entry.final_return;
    bytes[19..].copy_from_slice(&entry.cease_date.to_be_bytes());
    put_line(out, bytes);
}

/// "00, S count (4), E count (4), cents (8)"
pub fn put_closing(out: &mut Vec<u8>, employees: u32, employers: u32, cents: u64) {
    let mut bytes = [0x00; 17];
    bytes[1..5].copy_from_slice(&employees.to_be_bytes());
    bytes[5..9].copy_from_slice(&employers.to_be_bytes());
    bytes[9..].copy_from_slice(&cents.to_be_bytes());
    put_line(out, bytes);
}

/// "FF, number (1), line (4), column (2)"
pub fn put_refusal(out: &mut Vec<u8>, refusal: &Refusal) {
    let [a, b, c, d] = (refusal.line as u32).to_be_bytes();
    let [e, f] = (refusal.column as u16).to_be_bytes();
    put_line(out, [0xFF, refusal.number, a, b, c, d, e, f]);
}
