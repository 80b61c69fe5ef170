//! The acknowledgement program: the whole input to the whole output.

use crate::calendar::Quarter;
use crate::edits::Refusal;
use crate::meaning::{acknowledge, Accepted, Entry, Outcome, Room};

/// "Tables: 1,024 employers, 8,192 ids."
pub const ROOM: Room = Room {
    ids: 8_192,
    employers: 1_024,
};

/// The output for an input.
#[cfg(test)]
pub fn answer(input: &[u8]) -> Vec<u8> {
    frames(&outcome(input))
}

/// "Input: six digits YYYYMM of the last closed quarter and LF (else 70; not counted as a line),
/// then the file."
pub fn outcome(input: &[u8]) -> Outcome {
    match header(input) {
        Some((held, file)) => acknowledge(held, ROOM, file),
        None => Outcome::Refused(Refusal::new(70, 0, 0)),
    }
}

/// The quarter of the header and the file after it; none if the header is not as it should be.
/// That the quarter is one that may be held is for the opening to say.
pub fn header(input: &[u8]) -> Option<(Quarter, &[u8])> {
    let (head, file) = input.split_at_checked(7)?;
    let (digits, end) = head.split_at(6);
    if end != b"\n" || !digits.iter().all(u8::is_ascii_digit) {
        return None;
    }
    let value = digits
        .iter()
        .fold(0, |sum, digit| sum * 10 + u64::from(digit - b'0'));
    Some((Quarter::new(value / 100, value % 100), file))
}

/// The output in PFML.
pub fn frames(outcome: &Outcome) -> Vec<u8> {
    frames_with(outcome, employer_frame)
}

/// "Output: lines of hexadecimal in capitals, one frame a line, LF, numbers big-endian." The frame of
/// an employer goes by the format.
pub fn frames_with(outcome: &Outcome, employer_frame: fn(&Entry) -> Vec<u8>) -> Vec<u8> {
    let mut output = Vec::new();
    match outcome {
        Outcome::Accepted(accepted) => {
            for entry in &accepted.entries {
                put_line(&mut output, &employer_frame(entry));
            }
            put_line(&mut output, &closing_frame(accepted));
        }
        // "If refused, only FF, ..."
        Outcome::Refused(refusal) => put_line(&mut output, &refusal_frame(refusal)),
    }
    output
}

/// "01, FEIN (4 bytes), S count (4), cents (8), one for each employer". Document 02 (xiii): "The
/// employer frame 01 becomes 02 with the flags (1 byte each) and the date (4 bytes) at its end".
fn employer_frame(entry: &Entry) -> Vec<u8> {
    let mut frame = vec![0x02];
    put(&mut frame, entry.fein, 4);
    put(&mut frame, entry.count, 4);
    put(&mut frame, entry.cents, 8);
    put(&mut frame, entry.amended, 1);
    put(&mut frame, entry.final_return, 1);
    put(&mut frame, entry.cease_date, 4);
    frame
}

/// "then 00, S count (4), E count (4), cents (8)"
fn closing_frame(accepted: &Accepted) -> Vec<u8> {
    let mut frame = vec![0x00];
    put(&mut frame, accepted.s_count, 4);
    put(&mut frame, accepted.e_count, 4);
    put(&mut frame, accepted.cents, 8);
    frame
}

/// "FF, number (1), line (4), column (2)"
fn refusal_frame(refusal: &Refusal) -> Vec<u8> {
    let mut frame = vec![0xFF];
    put(&mut frame, refusal.number.into(), 1);
    put(&mut frame, refusal.line, 4);
    put(&mut frame, refusal.column, 2);
    frame
}

/// A number in so many bytes, big-endian.
pub fn put(frame: &mut Vec<u8>, value: u64, width: usize) {
    let bytes = value.to_be_bytes();
    let (above, below) = bytes.split_at(8 - width);
    assert!(above.iter().all(|byte| *byte == 0), "the number fits");
    frame.extend_from_slice(below);
}

fn put_line(output: &mut Vec<u8>, frame: &[u8]) {
    const DIGITS: &[u8; 16] = b"0123456789ABCDEF";
    for byte in frame {
        output.push(DIGITS[usize::from(byte >> 4)]);
        output.push(DIGITS[usize::from(byte & 15)]);
    }
    output.push(b'\n');
}
