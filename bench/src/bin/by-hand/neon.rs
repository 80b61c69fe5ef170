//! Sixteen bytes worked on at once, with what every processor of the kind aarch64 has.

use std::arch::aarch64::*;

pub type Bytes = uint8x16_t;
pub type Words = uint16x8_t;

/// The characters of a name in groups, each with a bit: letters from hex 40 or 60 on, letters from hex 50 or 70 on, hyphen
/// and apostrophe, and the blank.
const LETTERS_4: u8 = 1;
const LETTERS_5: u8 = 2;
const MARK: u8 = 4;
const BLANK: u8 = 8;

/// For `in_name`: what a column may hold, and what the first column of a name may.
pub const IN_NAME: u8 = LETTERS_4 | LETTERS_5 | MARK | BLANK;
pub const FIRST_IN_NAME: u8 = LETTERS_4 | LETTERS_5 | MARK;

/// The groups that a character may be of, by the upper half of its byte and by the lower.
const BY_UPPER: [u8; 16] = {
    let mut groups = [0; 16];
    groups[2] = MARK | BLANK;
    (groups[4], groups[6]) = (LETTERS_4, LETTERS_4);
    (groups[5], groups[7]) = (LETTERS_5, LETTERS_5);
    groups
};
const BY_LOWER: [u8; 16] = {
    let mut groups = [LETTERS_4; 16];
    groups[0] = BLANK | LETTERS_5;
    let mut place = 1;
    while place <= 10 {
        groups[place] |= LETTERS_5;
        place += 1;
    }
    groups[7] |= MARK;
    groups[13] |= MARK;
    groups
};

#[inline(always)]
pub unsafe fn load(from: *const u8) -> Bytes {
    vld1q_u8(from)
}

#[inline(always)]
pub unsafe fn splat(byte: u8) -> Bytes {
    vdupq_n_u8(byte)
}

#[inline(always)]
pub unsafe fn xor(a: Bytes, b: Bytes) -> Bytes {
    veorq_u8(a, b)
}

#[inline(always)]
pub unsafe fn or(a: Bytes, b: Bytes) -> Bytes {
    vorrq_u8(a, b)
}

#[inline(always)]
pub unsafe fn and(a: Bytes, b: Bytes) -> Bytes {
    vandq_u8(a, b)
}

/// How far each byte is above a limit; 0 where it is not.
#[inline(always)]
pub unsafe fn above(a: Bytes, limit: Bytes) -> Bytes {
    vqsubq_u8(a, limit)
}

#[inline(always)]
pub unsafe fn most(a: Bytes, b: Bytes) -> Bytes {
    vmaxq_u8(a, b)
}

/// All ones where a name may hold the byte: a letter, hyphen or apostrophe, or, where `columns` say so, a blank. A
/// character is of the group that both halves of its byte tell.
#[inline(always)]
pub unsafe fn in_name(text: Bytes, columns: Bytes) -> Bytes {
    let lower = vqtbl1q_u8(load(BY_LOWER.as_ptr()), vandq_u8(text, vdupq_n_u8(0x0F)));
    let upper = vqtbl1q_u8(load(BY_UPPER.as_ptr()), vshrq_n_u8::<4>(text));
    vtstq_u8(vandq_u8(lower, upper), columns)
}

#[inline(always)]
pub unsafe fn all_zero(a: Bytes) -> bool {
    vmaxvq_u8(a) == 0
}

#[inline(always)]
pub unsafe fn zero_words() -> Words {
    vdupq_n_u16(0)
}

#[inline(always)]
pub unsafe fn add_low(sum: Words, a: Bytes) -> Words {
    vaddw_u8(sum, vget_low_u8(a))
}

#[inline(always)]
pub unsafe fn add_high(sum: Words, a: Bytes) -> Words {
    vaddw_high_u8(sum, a)
}

#[inline(always)]
pub unsafe fn words(sum: Words) -> [u16; 8] {
    std::mem::transmute(sum)
}
