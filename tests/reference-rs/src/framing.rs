//! The two files of a run: the inputs, and the outputs expected for them.

use crate::format::Format;
use std::fs::File;
use std::io::{self, BufWriter, Write};

/// The largest length that eight digits tell.
const LONGEST: usize = 99_999_999;

/// Writes one input: eight decimal digits of its length, a blank, five decimal digits of the size
/// of the reads, a blank, one digit of the format's number, LF, then its bytes.
pub fn write_input(
    file: &mut impl Write,
    format: Format,
    input: &[u8],
    piece: usize,
) -> io::Result<()> {
    assert!(input.len() <= LONGEST, "eight digits tell the length");
    let number = format.word();
    assert!(number <= 9, "one digit tells the format");
    writeln!(file, "{:08} {piece:05} {number}", input.len())?;
    file.write_all(input)
}

/// Writes one output: its frames, then a line with a single full stop.
pub fn write_expected(file: &mut impl Write, frames: &[u8]) -> io::Result<()> {
    file.write_all(frames)?;
    file.write_all(b".\n")
}

pub fn create(path: &str) -> Result<BufWriter<File>, String> {
    let file = File::create(path).map_err(|e| format!("{path}: {e}"))?;
    Ok(BufWriter::new(file))
}

#[cfg(test)]
mod tests {
    use super::*;

    #[test]
    fn an_input_and_what_is_expected() {
        let mut inputs = Vec::new();
        write_input(&mut inputs, Format::Pfml, b"202603\nA\r\n", 7).unwrap();
        write_input(&mut inputs, Format::WHAM_2024, b"", 65_535).unwrap();
        let wanted = b"00000010 00007 0\n202603\nA\r\n00000000 65535 1\n";
        assert_eq!(inputs, wanted);
        let mut expected = Vec::new();
        write_expected(&mut expected, b"FF01000000010002\n").unwrap();
        write_expected(&mut expected, b"FF46000000000000\n").unwrap();
        assert_eq!(expected, b"FF01000000010002\n.\nFF46000000000000\n.\n");
    }
}
