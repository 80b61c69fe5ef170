//! Sixteen bytes worked on at once, with what every processor of the kind x86-64 has.

use std::arch::x86_64::*;

pub type Bytes = __m128i;
pub type Words = __m128i;

/// For `in_name`: what a column may hold besides letters and marks, and what the first column of a name may: no more.
pub const IN_NAME: u8 = b' ';
pub const FIRST_IN_NAME: u8 = b'-';

#[inline(always)]
pub unsafe fn load(from: *const u8) -> Bytes {
    _mm_loadu_si128(from.cast())
}

#[inline(always)]
pub unsafe fn splat(byte: u8) -> Bytes {
    _mm_set1_epi8(byte as i8)
}

#[inline(always)]
pub unsafe fn xor(a: Bytes, b: Bytes) -> Bytes {
    _mm_xor_si128(a, b)
}

#[inline(always)]
pub unsafe fn or(a: Bytes, b: Bytes) -> Bytes {
    _mm_or_si128(a, b)
}

#[inline(always)]
pub unsafe fn and(a: Bytes, b: Bytes) -> Bytes {
    _mm_and_si128(a, b)
}

/// How far each byte is above a limit; 0 where it is not.
#[inline(always)]
pub unsafe fn above(a: Bytes, limit: Bytes) -> Bytes {
    _mm_subs_epu8(a, limit)
}

#[inline(always)]
pub unsafe fn most(a: Bytes, b: Bytes) -> Bytes {
    _mm_max_epu8(a, b)
}

/// All ones where a name may hold the byte: a letter, hyphen or apostrophe, or, where `columns` say so, a blank.
#[inline(always)]
pub unsafe fn in_name(text: Bytes, columns: Bytes) -> Bytes {
    let from_a = _mm_sub_epi8(or(text, splat(0x20)), splat(b'a'));
    let letter = _mm_cmpeq_epi8(above(from_a, splat(25)), _mm_setzero_si128());
    let mark = or(
        _mm_cmpeq_epi8(text, splat(b'-')),
        _mm_cmpeq_epi8(text, splat(b'\'')),
    );
    let blank = _mm_cmpeq_epi8(text, columns);
    or(letter, or(mark, blank))
}

#[inline(always)]
pub unsafe fn all_zero(a: Bytes) -> bool {
    _mm_movemask_epi8(_mm_cmpeq_epi8(a, _mm_setzero_si128())) == 0xFFFF
}

#[inline(always)]
pub unsafe fn zero_words() -> Words {
    _mm_setzero_si128()
}

#[inline(always)]
pub unsafe fn add_low(sum: Words, a: Bytes) -> Words {
    _mm_add_epi16(sum, _mm_unpacklo_epi8(a, _mm_setzero_si128()))
}

#[inline(always)]
pub unsafe fn add_high(sum: Words, a: Bytes) -> Words {
    _mm_add_epi16(sum, _mm_unpackhi_epi8(a, _mm_setzero_si128()))
}

#[inline(always)]
pub unsafe fn words(sum: Words) -> [u16; 8] {
    std::mem::transmute(sum)
}
