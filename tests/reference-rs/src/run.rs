//! A run: cases written to its two files, and counted.

use crate::format::Format;
use crate::framing;
use crate::gen::Case;
use crate::meaning::Outcome;
use crate::pairs::Twin;
use crate::tally::Tally;
use std::fs::File;
use std::io::{BufWriter, Write};

pub struct Run {
    format: Format,
    inputs: BufWriter<File>,
    expected: BufWriter<File>,
    tally: Tally,
}

impl Run {
    pub fn create(format: Format, inputs: &str, expected: &str) -> Result<Run, String> {
        Ok(Run {
            format,
            inputs: framing::create(inputs)?,
            expected: framing::create(expected)?,
            tally: Tally::of(format),
        })
    }

    /// Writes a case and the output expected for it, and tells the answer.
    pub fn add(&mut self, case: &Case) -> Result<Outcome, String> {
        let outcome = self.format.outcome(&case.input);
        self.tally.count(case, &outcome);
        let frames = self.format.frames(&outcome);
        framing::write_input(&mut self.inputs, self.format, &case.input, case.piece)
            .and_then(|()| framing::write_expected(&mut self.expected, &frames))
            .map_err(|e| e.to_string())?;
        Ok(outcome)
    }

    /// The same of two.
    pub fn add_two(&mut self, pair: &impl Twin) -> Result<[Outcome; 2], String> {
        let [one, other] = pair.cases();
        Ok([self.add(one)?, self.add(other)?])
    }

    /// Prints the table, and fails where a case or the whole is not as it was meant to be.
    pub fn finish(mut self, promised: Vec<u8>) -> Result<(), String> {
        for file in [&mut self.inputs, &mut self.expected] {
            file.flush().map_err(|e| e.to_string())?;
        }
        self.tally.finish(promised)
    }
}
