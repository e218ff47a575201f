//! Which of some given remainders add up to a wanted one? Two answers that
//! know nothing of each other: every subset is tried, or the 24 equations (one
//! for each coefficient) are solved by elimination.
//!
//! In the sensor the remainders are those of the low-confidence bits of one
//! window. They are independent, since they belong to 24 consecutive powers of
//! x and G has degree 24, so at most one subset answers.

use crate::poly::DEGREE;

/// Up to this many columns every subset is tried.
pub const FEW: usize = 6;

/// The columns to add, or none; empty subsets do not count.
pub fn columns_that_add_up_to(columns: &[u32], wanted: u32) -> Option<Vec<bool>> {
    if columns.len() <= FEW {
        try_every_subset(columns, wanted)
    } else {
        eliminate(columns, wanted)
    }
}

/// Tries all subsets but the empty one; two that answer would contradict the
/// papers and stop the program.
pub fn try_every_subset(columns: &[u32], wanted: u32) -> Option<Vec<bool>> {
    let mut found = None;
    for subset in 1u32..1 << columns.len() {
        let chosen = |k: usize| subset >> k & 1 == 1;
        let mut sum = 0;
        for (k, column) in columns.iter().enumerate() {
            if chosen(k) {
                sum ^= column;
            }
        }
        if sum == wanted {
            assert!(found.is_none(), "two patterns of one window have one remainder");
            found = Some((0..columns.len()).map(chosen).collect());
        }
    }
    found
}

/// One equation: a bit for each unknown, and the right side.
#[derive(Clone, Copy)]
struct Equation {
    unknowns: u32,
    right: bool,
}

/// Solves by Gaussian elimination. The columns have to be independent.
pub fn eliminate(columns: &[u32], wanted: u32) -> Option<Vec<bool>> {
    let mut equations = equations(columns, wanted);
    for unknown in 0..columns.len() {
        let has = |equation: &Equation| equation.unknowns >> unknown & 1 == 1;
        let pivot = (unknown..DEGREE).find(|row| has(&equations[*row]));
        equations.swap(unknown, pivot.expect("the columns are independent"));
        let chosen = equations[unknown];
        for (row, equation) in equations.iter_mut().enumerate() {
            if row != unknown && has(equation) {
                equation.unknowns ^= chosen.unknowns;
                equation.right ^= chosen.right;
            }
        }
    }
    let (solved, left_over) = equations.split_at(columns.len());
    let contradiction = left_over.iter().any(|equation| equation.right);
    let empty = solved.iter().all(|equation| !equation.right);
    (!contradiction && !empty).then(|| solved.iter().map(|equation| equation.right).collect())
}

/// Equation k: the coefficients of x^k of the chosen columns add up to that of
/// the wanted remainder.
fn equations(columns: &[u32], wanted: u32) -> [Equation; DEGREE] {
    let mut equations = [Equation { unknowns: 0, right: false }; DEGREE];
    for (power, equation) in equations.iter_mut().enumerate() {
        equation.right = wanted >> power & 1 == 1;
        for (unknown, column) in columns.iter().enumerate() {
            equation.unknowns |= (column >> power & 1) << unknown;
        }
    }
    equations
}

#[cfg(test)]
mod tests {
    use super::*;
    use crate::poly::remainder_of_power;
    use crate::random::Random;

    /// Both ways agree on up to ten columns of a window, wanted sums and others.
    #[test]
    fn trying_and_solving_agree() {
        let mut random = Random::new(3);
        for _ in 0..3000 {
            let place = random.below(89);
            let count = random.below(11);
            let chosen = random.choose(count, 24);
            let columns: Vec<u32> = chosen.iter().map(|k| remainder_of_power(place + k)).collect();
            let mut wanted = if random.one_in(2) { random.word() } else { 0 };
            for column in &columns {
                if random.one_in(2) {
                    wanted ^= column;
                }
            }
            assert_eq!(try_every_subset(&columns, wanted), eliminate(&columns, wanted));
        }
    }

    /// With all 24 columns every remainder but zero is met.
    #[test]
    fn a_whole_window_meets_everything() {
        let mut random = Random::new(4);
        for place in 0..89 {
            let columns: Vec<u32> = (0..24).map(|k| remainder_of_power(place + k)).collect();
            let wanted = random.word() | 1;
            let chosen = eliminate(&columns, wanted).expect("24 independent columns");
            let terms = columns.iter().zip(&chosen).filter(|(_, chosen)| **chosen);
            assert_eq!(terms.fold(0, |sum, (column, _)| sum ^ column), wanted);
            assert_eq!(eliminate(&columns, 0), None);
        }
    }
}
