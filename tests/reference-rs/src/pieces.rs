//! How large the reads are that the product is to make of an input: what it answers must not depend
//! on them.

use crate::rng::Rng;

/// The largest size.
pub const MOST: usize = 65_535;

/// Longer inputs are not read in small pieces, so that they stay fast.
const LONG: usize = 20_000;
const LEAST_OF_LONG: usize = 4_096;

/// Sizes at which reads end near the header's end, or somewhere.
const USUAL: [usize; 10] = [1, 2, 6, 7, 8, 13, 513, 514, 515, 1_000];

/// The length of a record of PFML.
const PFML: usize = 290;

/// One of these, or a size at which reads end near a record's end, its line end, or those of two.
fn usual(length: usize, rng: &mut Rng) -> usize {
    match rng.below(17) {
        place @ 0..=9 => USUAL[place as usize],
        place @ 10..=14 => length + place as usize - 11,
        place => 2 * length + place as usize - 12,
    }
}

/// A size for this input, of PFML.
pub fn size(rng: &mut Rng, input: &[u8]) -> usize {
    size_for(PFML, rng, input)
}

/// A size for this input, whose records have this length.
pub fn size_for(length: usize, rng: &mut Rng, input: &[u8]) -> usize {
    if input.len() > LONG {
        let any = rng.column(LEAST_OF_LONG, MOST);
        return rng.pick(&[LEAST_OF_LONG, LEAST_OF_LONG + 1, 8_192, MOST, any]);
    }
    match rng.below(8) {
        0 => MOST,
        1 => rng.column(1, MOST),
        2 => rng.column(1, 600),
        3 => up_to_a_return(length, rng, input),
        _ => usual(length, rng),
    }
}

/// The first read ends right after a CR: an LF after it belongs to the same line end.
fn up_to_a_return(length: usize, rng: &mut Rng, input: &[u8]) -> usize {
    let returns: Vec<usize> = (0..input.len()).filter(|p| input[*p] == b'\r').collect();
    match returns.is_empty() {
        true => usual(length, rng),
        false => rng.pick(&returns) + 1,
    }
}

#[cfg(test)]
mod tests {
    use super::*;

    fn sizes_of(input: &[u8]) -> Vec<usize> {
        (0..2_000)
            .map(|k| size(&mut Rng::of(5, 0, k), input))
            .collect()
    }

    #[test]
    fn short_inputs_are_read_in_pieces_of_all_sizes() {
        let sizes = sizes_of(&[b' '; LONG]);
        assert!(sizes.iter().all(|size| (1..=MOST).contains(size)));
        let near_ends = [289, 290, 291, 292, 293, 583, 584];
        for wanted in USUAL.into_iter().chain(near_ends).chain([MOST]) {
            assert!(sizes.contains(&wanted), "{wanted}");
        }
    }

    #[test]
    fn reads_that_end_near_shorter_records() {
        let sizes: Vec<usize> = (0..2_000)
            .map(|k| size_for(275, &mut Rng::of(6, 0, k), &[b' '; LONG]))
            .collect();
        for wanted in [274, 275, 276, 277, 278, 553, 554] {
            assert!(sizes.contains(&wanted), "{wanted}");
        }
    }

    #[test]
    fn long_inputs_are_not_read_in_small_pieces() {
        let sizes = sizes_of(&[b'\r'; LONG + 1]);
        assert!(sizes.iter().all(|size| (4_096..=MOST).contains(size)));
        assert!(sizes.contains(&4_096) && sizes.contains(&MOST));
    }

    #[test]
    fn some_read_ends_behind_a_return() {
        let mut input = [b' '; 500];
        input[470] = b'\r';
        assert!(sizes_of(&input).iter().filter(|size| **size == 471).count() > 100);
    }
}
