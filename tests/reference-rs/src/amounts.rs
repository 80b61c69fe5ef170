//! Amounts dealt otherwise, with the same total.

use crate::rng::Rng;

/// As many amounts of the same total, none of them more than `most`.
pub fn moved(rng: &mut Rng, amounts: &[u64], most: u64) -> Vec<u64> {
    let mut new = amounts.to_vec();
    match rng.below(5) {
        0 => rng.shuffle(&mut new),
        1 if !new.is_empty() => move_some(rng, &mut new, most),
        _ => {
            let total = amounts.iter().copied().map(u128::from).sum();
            new = dealt(rng, total, amounts.len(), most);
        }
    }
    new
}

/// From one to another, a cent or more.
fn move_some(rng: &mut Rng, amounts: &mut [u64], most: u64) {
    let (from, to) = (rng.index(amounts.len()), rng.index(amounts.len()));
    let room = amounts[from].min(most - amounts[to]);
    let any = rng.between(0, room);
    let amount = rng.pick(&[any, room, room.min(1)]);
    amounts[from] -= amount;
    amounts[to] += amount;
}

/// So many amounts of this total, all that their columns can hold.
fn dealt(rng: &mut Rng, total: u128, count: usize, most: u64) -> Vec<u64> {
    let mut left = total;
    let mut amounts = Vec::new();
    for behind in (0..count as u128).rev() {
        // At least so much that the rest of them can hold the rest of it.
        let least = left.saturating_sub(behind * u128::from(most)) as u64;
        let most = left.min(most.into()) as u64;
        let twice_a_share = (2 * left / (behind + 1)) as u64;
        let any = rng.between(least, most);
        let near_a_share = rng.between(least, twice_a_share.clamp(least, most));
        let one = rng.pick(&[least, most, any, near_a_share, near_a_share, near_a_share]);
        left -= u128::from(one);
        amounts.push(one);
    }
    assert_eq!(left, 0, "the columns hold the total");
    rng.shuffle(&mut amounts);
    amounts
}

#[cfg(test)]
mod tests {
    use super::*;

    #[test]
    fn amounts_keep_their_total() {
        for most in [99_999_999_999_999, 999_999_999_999] {
            let all: [&[u64]; 6] = [&[], &[7], &[1, 2, 3], &[0, 0], &[most, 0, 5], &[most; 4]];
            for amounts in all {
                for k in 0..200 {
                    let new = moved(&mut Rng::of(4, 0, k), amounts, most);
                    assert_eq!(new.len(), amounts.len());
                    assert!(new.iter().all(|one| *one <= most));
                    assert_eq!(new.iter().sum::<u64>(), amounts.iter().sum::<u64>());
                }
            }
        }
    }
}
