//! The exports as they are: each slice is a pointer and a length, and each call answers a number,
//! 0 if all is well, else that of the refusal. `include/wage.h` has the full promise of each.
//!
//! The safe face of this crate makes these calls with slices, so that nothing is left to be asked.
//! Who makes one of them oneself owes what the library cannot test:
//!
//! - each pointer is good for as many elements as the length after it says: to be read, and where
//!   it is `*mut` to be written;
//! - it is aligned as its type is;
//! - no two of the areas lent to one call overlap, one that is only read included;
//! - the thread has 65,536 bytes of stack.
//!
//! With length 0 a pointer is not followed, and may be null.
//!
//! `answer` is lent room for up to four words, of which as many are written as fit: the number
//! that is also returned, the line, the column, and the bytes taken or written (or the number
//! that was read). `state` is the 27 words of a walk. `ids` and `list` are its two tables.

use super::Employer;

extern "C" {
    /// The version of the library. It takes nothing, and asks nothing.
    pub fn wage_abi_version() -> u64;

    /// Opens a walk over a file of the format with this number, for the last closed quarter: fills
    /// the state and zeroes both tables. It asks for 27 words of state, else it answers 72.
    pub fn wage_open(
        format: u64,
        year: u64,
        month: u64,
        state: *mut u64,
        state_length: usize,
        answer: *mut u64,
        answer_length: usize,
        ids: *mut u32,
        ids_length: usize,
        list: *mut Employer,
        list_length: usize,
    ) -> u64;

    /// Reads the first line of the bytes, and answers how many it takes. It asks for the state and
    /// the tables as the call before left them, and for all that remains of the file or at least
    /// 292 bytes of it.
    pub fn wage_line(
        state: *mut u64,
        state_length: usize,
        bytes: *const u8,
        bytes_length: usize,
        answer: *mut u64,
        answer_length: usize,
        ids: *mut u32,
        ids_length: usize,
        list: *mut Employer,
        list_length: usize,
    ) -> u64;

    /// Ends the file: 0 is acceptance. It asks for the state and the tables as the call before left
    /// them.
    pub fn wage_end(
        state: *mut u64,
        state_length: usize,
        answer: *mut u64,
        answer_length: usize,
        ids: *mut u32,
        ids_length: usize,
        list: *mut Employer,
        list_length: usize,
    ) -> u64;

    /// A file in one piece: the opening, a line call while any byte remains and none is refused,
    /// and the end, whose answer this is. It asks for 27 words of state, else it answers 72.
    pub fn wage_whole(
        format: u64,
        year: u64,
        month: u64,
        bytes: *const u8,
        bytes_length: usize,
        state: *mut u64,
        state_length: usize,
        answer: *mut u64,
        answer_length: usize,
        ids: *mut u32,
        ids_length: usize,
        list: *mut Employer,
        list_length: usize,
    ) -> u64;

    /// Writes the T record that the walk accepts next. It asks for 290 bytes, else it answers 83.
    pub fn wage_write_t(
        state: *const u64,
        state_length: usize,
        out: *mut u8,
        out_length: usize,
        answer: *mut u64,
        answer_length: usize,
    ) -> u64;

    /// Writes the F record that the walk accepts next. It asks for 290 bytes, else it answers 83.
    pub fn wage_write_f(
        state: *const u64,
        state_length: usize,
        out: *mut u8,
        out_length: usize,
        answer: *mut u64,
        answer_length: usize,
    ) -> u64;

    /// Writes the T record of an amended withholding file that the walk accepts next. It asks for
    /// 275 bytes, else it answers 83.
    pub fn wage_wham_write_t(
        state: *const u64,
        state_length: usize,
        payments: u64,
        total: u64,
        out: *mut u8,
        out_length: usize,
        answer: *mut u64,
        answer_length: usize,
    ) -> u64;

    /// Writes the F record of an amended withholding file that the walk accepts next. It asks for
    /// 275 bytes, else it answers 83.
    pub fn wage_wham_write_f(
        state: *const u64,
        state_length: usize,
        out: *mut u8,
        out_length: usize,
        answer: *mut u64,
        answer_length: usize,
    ) -> u64;

    /// Builds an A record from unpadded values and texts. It asks for 290 bytes, else it answers
    /// 84.
    pub fn wage_build_a(
        values: *const u64,
        values_length: usize,
        texts: *const u8,
        texts_length: usize,
        out: *mut u8,
        out_length: usize,
        answer: *mut u64,
        answer_length: usize,
    ) -> u64;

    /// Builds an E record from unpadded values and texts. It asks for 290 bytes, else it answers
    /// 84.
    pub fn wage_build_e(
        values: *const u64,
        values_length: usize,
        texts: *const u8,
        texts_length: usize,
        out: *mut u8,
        out_length: usize,
        answer: *mut u64,
        answer_length: usize,
    ) -> u64;

    /// Builds an S record from unpadded values and texts. It asks for 290 bytes, else it answers
    /// 84.
    pub fn wage_build_s(
        values: *const u64,
        values_length: usize,
        texts: *const u8,
        texts_length: usize,
        out: *mut u8,
        out_length: usize,
        answer: *mut u64,
        answer_length: usize,
    ) -> u64;

    /// Reads the number in a field of a line; it is the answer's fourth word. The letter, a
    /// capital, says whose field it is, whatever the line begins with.
    pub fn wage_field_number(
        letter: u8,
        field: usize,
        line: *const u8,
        line_length: usize,
        answer: *mut u64,
        answer_length: usize,
    ) -> u64;

    /// How many characters the text in a field of a line has, without trailing blanks and as far
    /// as the line goes; 0 where there is no such field.
    pub fn wage_field_text(letter: u8, field: usize, line: *const u8, line_length: usize) -> u64;

    /// The first column of a field, from 1; 0 where there is no such field. It asks nothing.
    pub fn wage_field_first(letter: u8, field: usize) -> u64;

    /// Writes the acknowledgement of a walk that has ended to the front of the buffer, and answers
    /// how many bytes it is. It asks for the list as the end left it, and for a buffer that holds
    /// the acknowledgement, else it answers 88: 47 bytes for each employer and 35 more are enough.
    pub fn wage_frames(
        state: *const u64,
        state_length: usize,
        list: *const Employer,
        list_length: usize,
        out: *mut u8,
        out_length: usize,
        answer: *mut u64,
        answer_length: usize,
    ) -> u64;
}
