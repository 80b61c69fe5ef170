//! Standard input in blocks. What is left of a block is moved to stand right before the next, so that a read always
//! brings whole pages of the file to whole pages of memory.

/// The largest block.
pub const MOST: usize = 1024 * 1024;
/// What a read brings at most, where each page of the block costs a fault. Fewer reads would be better, fewer pages too.
pub const BLOCK: usize = 512 * 1024;
/// What is left of a block is less than a line with its end; this keeps the block where a page begins.
const BEFORE: usize = 4096;

extern "C" {
    fn read(file: i32, into: *mut u8, room: usize) -> isize;
    fn write(file: i32, from: *const u8, count: usize) -> isize;
}

#[repr(align(4096))]
struct Pages([u8; BEFORE + MOST]);

/// It begins as zeros, so that no page of it has to come from the program's file.
pub struct Input {
    pages: Pages,
    /// How many bytes stand before the block, how many in it, and how many of all are taken.
    left: usize,
    read: usize,
    taken: usize,
}

impl Input {
    pub const fn new() -> Input {
        Input {
            pages: Pages([0; BEFORE + MOST]),
            left: 0,
            read: 0,
            taken: 0,
        }
    }

    pub fn held(&self) -> &[u8] {
        &self.pages.0[BEFORE - self.left + self.taken..BEFORE + self.read]
    }

    pub fn take(&mut self, count: usize) {
        self.taken += count;
    }

    /// Reads so many bytes at most after what is held, which is less than a line with its end. Tells whether there was
    /// more; none: it failed.
    pub fn read(&mut self, most: usize) -> Option<bool> {
        let left = self.held().len();
        let from = BEFORE + self.read - left;
        self.pages.0.copy_within(from..from + left, BEFORE - left);
        let room = &mut self.pages.0[BEFORE..][..most];
        let got = unsafe { read(0, room.as_mut_ptr(), most) };
        self.left = left;
        self.read = usize::try_from(got).ok()?;
        self.taken = 0;
        Some(got > 0)
    }
}

pub fn write_all(file: i32, mut bytes: &[u8]) -> bool {
    while !bytes.is_empty() {
        let put = unsafe { write(file, bytes.as_ptr(), bytes.len()) };
        if put <= 0 {
            return false;
        }
        bytes = &bytes[put as usize..];
    }
    true
}
