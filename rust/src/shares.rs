//! Share rules: how a quantity is split by weights into whole litres.

use crate::MOST_LITRES;

pub const MOST_WEIGHTS: usize = 4_096;
pub const LARGEST_WEIGHT: u64 = 2_000_000;

/// Writes one share for each weight. Where the weights sum to 0, a limit is passed or the two
/// lengths differ, all shares are 0. Otherwise the shares sum to the quantity, each share is less
/// than a litre from its exact proportion, and weight 0 gets 0.
pub trait ShareRule {
    fn share(&self, quantity: u64, weights: &[u64], shares: &mut [u64]);
}

/// The sum of the weights, where there is something to be shared out by them.
fn sum_to_share_by(quantity: u64, weights: &[u64], shares: &[u64]) -> Option<u64> {
    let fits = quantity <= MOST_LITRES
        && weights.len() <= MOST_WEIGHTS
        && weights.len() == shares.len()
        && weights.iter().all(|&weight| weight <= LARGEST_WEIGHT);
    let sum = if fits { weights.iter().sum() } else { 0 };
    (sum > 0).then_some(sum)
}

/// Share i is what the first i weights have together, less what the first i - 1 have.
#[derive(Clone, Copy, Default, Debug)]
pub struct Running;

impl ShareRule for Running {
    fn share(&self, quantity: u64, weights: &[u64], shares: &mut [u64]) {
        let Some(sum) = sum_to_share_by(quantity, weights, shares) else {
            return shares.fill(0);
        };
        let (mut weight_so_far, mut litres_so_far) = (0, 0);
        for (share, weight) in shares.iter_mut().zip(weights) {
            weight_so_far += weight;
            let until = quantity * weight_so_far / sum;
            *share = until - litres_so_far;
            litres_so_far = until;
        }
    }
}

/// Each gets its whole litres; those left go one each to the largest remainders, the lower place
/// first where equal.
#[derive(Clone, Copy, Default, Debug)]
pub struct LargestRemainder;

impl ShareRule for LargestRemainder {
    fn share(&self, quantity: u64, weights: &[u64], shares: &mut [u64]) {
        let Some(sum) = sum_to_share_by(quantity, weights, shares) else {
            return shares.fill(0);
        };
        let mut left = quantity as usize;
        // On the stack: a list made anew each day can cost more than the sharing.
        let mut places = [(0, 0); MOST_WEIGHTS];
        let by_remainder = &mut places[..weights.len()];
        for (place, (share, weight)) in shares.iter_mut().zip(weights).enumerate() {
            *share = quantity * weight / sum;
            left -= *share as usize;
            // Smallest first below: the largest remainder, then the lowest place.
            by_remainder[place] = (sum - quantity * weight % sum, place);
        }
        if left > 0 {
            by_remainder.select_nth_unstable(left - 1);
        }
        for &(_, place) in &by_remainder[..left] {
            shares[place] += 1;
        }
    }
}

#[cfg(test)]
mod tests {
    use super::*;

    fn shared(rule: &impl ShareRule, quantity: u64, weights: &[u64]) -> Vec<u64> {
        let mut shares = vec![7; weights.len()];
        rule.share(quantity, weights, &mut shares);
        shares
    }

    fn laws_hold(quantity: u64, weights: &[u64], shares: &[u64]) -> bool {
        let sum: u64 = weights.iter().sum();
        shares.iter().sum::<u64>() == quantity
            && weights.iter().zip(shares).all(|(&weight, &share)| {
                (share * sum).abs_diff(quantity * weight) < sum && (weight > 0 || share == 0)
            })
    }

    #[test]
    fn the_worked_figures() {
        assert_eq!(shared(&Running, 100, &[1, 1, 1]), [33, 33, 34]);
        assert_eq!(shared(&LargestRemainder, 100, &[1, 1, 1]), [34, 33, 33]);
        assert_eq!(shared(&Running, 4, &[2, 3]), [1, 3]);
        assert_eq!(shared(&LargestRemainder, 4, &[2, 3]), [2, 2]);
        assert_eq!(shared(&Running, 600_000, &[76_444, 38_222]), [400_000, 200_000]);
        assert_eq!(shared(&LargestRemainder, 600_000, &[76_444, 38_222]), [400_000, 200_000]);
    }

    #[test]
    fn equal_remainders_go_to_the_lower_places() {
        assert_eq!(shared(&LargestRemainder, 7, &[5, 5, 5, 5]), [2, 2, 2, 1]);
        assert_eq!(shared(&LargestRemainder, 2, &[0, 1, 1, 1]), [0, 1, 1, 0]);
    }

    #[test]
    fn nothing_to_share_by() {
        assert_eq!(shared(&Running, 9, &[0, 0]), [0, 0]);
        assert_eq!(shared(&LargestRemainder, 9, &[0, 0]), [0, 0]);
        assert_eq!(shared(&Running, 9, &[]), []);
        assert_eq!(shared(&LargestRemainder, 0, &[]), []);
    }

    #[test]
    fn limits() {
        fn all(rule: &impl ShareRule) {
            assert_eq!(shared(rule, MOST_LITRES, &[1]), [MOST_LITRES]);
            assert_eq!(shared(rule, MOST_LITRES + 1, &[1]), [0]);
            assert_eq!(shared(rule, 10, &[LARGEST_WEIGHT, 0]), [10, 0]);
            assert_eq!(shared(rule, 10, &[LARGEST_WEIGHT + 1, 1]), [0, 0]);
            assert_eq!(shared(rule, 4_096, &[1; 4_096]), [1; 4_096]);
            assert_eq!(shared(rule, 4_097, &[1; 4_097]), [0; 4_097]);
            for length in [0, 1, 3] {
                let mut shares = vec![7; length];
                rule.share(10, &[1, 1], &mut shares);
                assert_eq!(shares, vec![0; length]);
            }
        }
        all(&Running);
        all(&LargestRemainder);
    }

    #[test]
    fn laws_over_many_small_cases() {
        for quantity in 0..12 {
            for code in 0..4_u64.pow(4) {
                let weights: Vec<u64> = (0..4).map(|place| code / 4_u64.pow(place) % 4).collect();
                if weights.iter().sum::<u64>() > 0 {
                    assert!(laws_hold(quantity, &weights, &shared(&Running, quantity, &weights)));
                    let shares = shared(&LargestRemainder, quantity, &weights);
                    assert!(laws_hold(quantity, &weights, &shares));
                }
            }
        }
    }

    #[test]
    fn laws_at_full_size() {
        let weights: Vec<u64> =
            (0..4_096).map(|place| place * 7_919 % (LARGEST_WEIGHT + 1)).collect();
        for quantity in [0, 1, 999_999_937, MOST_LITRES] {
            assert!(laws_hold(quantity, &weights, &shared(&Running, quantity, &weights)));
            assert!(laws_hold(quantity, &weights, &shared(&LargestRemainder, quantity, &weights)));
        }
        let heaviest = [LARGEST_WEIGHT; 4_096];
        assert!(laws_hold(MOST_LITRES, &heaviest, &shared(&Running, MOST_LITRES, &heaviest)));
    }
}
