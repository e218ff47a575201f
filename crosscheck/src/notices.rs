//! What division alone notices (document 02, Point 8), by counting: the changes
//! of few bits, and of two bursts, whose remainder is zero.

use crate::poly::remainder_of_power;
use std::collections::HashMap;

/// The remainders of x^0 to x^(n - 1), as numbers.
fn of_powers(n: usize) -> Vec<u32> {
    (0..n).map(remainder_of_power).collect()
}

/// How many sums of `count` different powers there are of each value.
fn sums(powers: &[u32], count: usize) -> HashMap<u32, Vec<Vec<usize>>> {
    fn go(
        powers: &[u32],
        from: usize,
        left: usize,
        taken: &mut Vec<usize>,
        sum: u32,
        found: &mut HashMap<u32, Vec<Vec<usize>>>,
    ) {
        if left == 0 {
            found.entry(sum).or_default().push(taken.clone());
            return;
        }
        for k in from..powers.len() {
            taken.push(k);
            go(powers, k + 1, left - 1, taken, sum ^ powers[k], found);
            taken.pop();
        }
    }
    let mut found = HashMap::new();
    go(powers, 0, count, &mut Vec::new(), 0, &mut found);
    found
}

/// How many changes of exactly `2 * half` bits of n have the remainder zero: two
/// sets of half as many bits each, with equal sums and no bit in common.
pub fn passing(n: usize, half: usize) -> u64 {
    let powers = of_powers(n);
    let mut pairs = 0u64;
    for sets in sums(&powers, half).values() {
        for (index, first) in sets.iter().enumerate() {
            let apart = |second: &&Vec<usize>| second.iter().all(|bit| !first.contains(bit));
            pairs += sets[..index].iter().filter(apart).count() as u64;
        }
    }
    // each change is so many pairs of halves
    let ways = [1, 1, 3, 10][half];
    assert_eq!(pairs % ways, 0);
    pairs / ways
}

/// Whether two bursts of at most b bits, anywhere in n, always have a remainder.
/// The lower one may be taken to begin at x^0: then the other's remainder would
/// have to be below 2^b, beyond what needs no division.
pub fn bursts_noticed(n: usize, b: usize) -> bool {
    let powers = of_powers(n);
    let sum = |pattern: usize, place: usize| {
        (0..b).filter(|bit| pattern >> bit & 1 == 1).fold(0, |sum, bit| sum ^ powers[place + bit])
    };
    let length = |pattern: usize| (usize::BITS - pattern.leading_zeros()) as usize;
    (1..1usize << b).all(|pattern| {
        (0..=n - length(pattern))
            .filter(|place| place + length(pattern) > 24)
            .all(|place| sum(pattern, place) >= 1 << b)
    })
}

#[cfg(test)]
mod tests {
    use super::*;

    /// x + 1 divides the generator: every power has an odd number of ones in its
    /// remainder, so a sum of an odd number of powers is never zero.
    #[test]
    fn odd_numbers() {
        assert!(of_powers(112).iter().all(|power| power.count_ones() % 2 == 1));
    }

    #[test]
    fn few_bits_of_112() {
        assert_eq!([1, 2].map(|half| passing(112, half)), [0, 0]);
        assert_eq!(passing(112, 3), 224);
    }

    #[test]
    fn few_bits_of_56() {
        assert_eq!([1, 2, 3].map(|half| passing(56, half)), [0, 0, 0]);
        let powers = of_powers(56);
        let sum = [0, 1, 3, 4, 10, 11, 12, 25].iter().fold(0, |sum, bit| sum ^ powers[*bit]);
        assert_eq!(sum, 0);
    }

    #[test]
    fn two_bursts() {
        assert!(bursts_noticed(112, 8));
        assert!(!bursts_noticed(112, 9));
        assert!(bursts_noticed(56, 12));
        assert!(!bursts_noticed(56, 13));
    }
}
