//! Cutting: "A line ends at LF, CR, or CR followed at once by LF."

/// The first line of some bytes: its text, and how many bytes its end takes (0 if it has none).
#[derive(Clone, Copy, Debug, PartialEq, Eq)]
pub struct Cut<'a> {
    pub text: &'a [u8],
    pub end: usize,
}

impl Cut<'_> {
    /// "how many bytes that line and its end take"
    pub fn taken(&self) -> usize {
        self.text.len() + self.end
    }
}

/// "reads the first line of the bytes it is lent [...] and ignores the rest. No bytes at all are a
/// line of length 0."
pub fn first_line(bytes: &[u8]) -> Cut<'_> {
    let length = bytes
        .iter()
        .position(|byte| *byte == b'\n' || *byte == b'\r')
        .unwrap_or(bytes.len());
    let end = match &bytes[length..] {
        [b'\r', b'\n', ..] => 2,
        [_, ..] => 1,
        [] => 0,
    };
    Cut {
        text: &bytes[..length],
        end,
    }
}

/// The lines of a file: one after the other "while any byte remains".
pub fn lines_of(file: &[u8]) -> impl Iterator<Item = Cut<'_>> {
    let mut rest = file;
    std::iter::from_fn(move || {
        if rest.is_empty() {
            return None;
        }
        let cut = first_line(rest);
        rest = &rest[cut.taken()..];
        Some(cut)
    })
}

#[cfg(test)]
mod tests {
    use super::*;

    fn cuts(file: &[u8]) -> Vec<(&[u8], usize)> {
        lines_of(file).map(|c| (c.text, c.end)).collect()
    }

    #[test]
    fn three_ends() {
        let text = cuts(b"a\nb\rc\r\nd");
        let wanted: Vec<(&[u8], usize)> = vec![(b"a", 1), (b"b", 1), (b"c", 2), (b"d", 0)];
        assert_eq!(text, wanted);
    }

    #[test]
    fn line_feed_then_return_is_two_ends() {
        let wanted: Vec<(&[u8], usize)> = vec![(b"a", 1), (b"", 1), (b"b", 1)];
        assert_eq!(cuts(b"a\n\rb\n"), wanted);
        let wanted: Vec<(&[u8], usize)> = vec![(b"a", 1), (b"", 2)];
        assert_eq!(cuts(b"a\r\r\n"), wanted);
    }

    #[test]
    fn nothing_has_no_line_but_reads_as_an_empty_one() {
        assert!(cuts(b"").is_empty());
        assert_eq!(first_line(b"").taken(), 0);
    }
}
