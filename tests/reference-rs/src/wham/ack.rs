//! The acknowledgement program (8): "the same frames; list of 1,024 employers, no ids. Input as in
//! 01".

use super::meaning::acknowledge;
use super::Edition;
use crate::ack::{frames_with, header, put};
use crate::edits::Refusal;
use crate::meaning::{Entry, Outcome};

pub const EMPLOYERS: usize = 1_024;

pub fn outcome(edition: Edition, input: &[u8]) -> Outcome {
    match header(input) {
        Some((held, file)) => acknowledge(edition, held, EMPLOYERS, file),
        None => Outcome::Refused(Refusal::new(70, 0, 0)),
    }
}

/// "Frames 01, 00, FF and the bound of 35 bytes for each employer and 35 more are 01's."
pub fn frames(outcome: &Outcome) -> Vec<u8> {
    frames_with(outcome, employer_frame)
}

/// "01, FEIN (4 bytes), S count (4), cents (8), one for each employer": "The longer entry and frame
/// 02 of (xiii) are the wage file's alone."
fn employer_frame(entry: &Entry) -> Vec<u8> {
    let mut frame = vec![0x01];
    put(&mut frame, entry.fein, 4);
    put(&mut frame, entry.count, 4);
    put(&mut frame, entry.cents, 8);
    frame
}
