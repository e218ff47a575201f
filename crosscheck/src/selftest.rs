//! The checks of this program on itself: published values, and the programs
//! written for speed against the reference on random lines.

use crate::blocks::{pack, special_inputs};
use crate::random::Random;
use crate::run::first_difference;
use crate::text::lines;
use crate::{calls, calls_lines, fast_calls, fast_sift, sift, sift_lines, vectors};

/// Rounds of random lines in a self test.
const ROUNDS: usize = 4;

/// The reference meets the published values: how many.
pub fn published_values() -> Result<String, String> {
    let count = vectors::check_all()?;
    Ok(format!("the reference meets {count} published values"))
}

/// The lines of an input that the fast `calls` knows: R, and malformed ones.
/// An input that is too long stays as it is.
pub fn lines_for_fast_calls(input: &[u8]) -> Vec<u8> {
    if input.len() > crate::text::MOST_BYTES {
        return input.to_vec();
    }
    let known = |line: &[u8]| {
        use calls::Call::{Bits, Bytes, Rows};
        matches!(calls::read(line), None | Some(Bits(_) | Bytes(_) | Rows(_)))
    };
    let mut kept = Vec::with_capacity(input.len());
    for line in lines(input).into_iter().filter(|line| known(line)) {
        kept.extend_from_slice(line);
        kept.push(b'\n');
    }
    if !input.ends_with(b"\n") {
        kept.pop();
    }
    kept
}

/// Random inputs for `sift`: special ones and a few rounds of lines.
pub fn inputs_for_sift() -> Vec<Vec<u8>> {
    let mut random = Random::new(11);
    let mut for_lines = Random::new(12);
    let special = special_inputs(&mut random, &mut || sift_lines::any_line(&mut for_lines));
    let mut inputs: Vec<Vec<u8>> = special.into_iter().map(|input| input.1).collect();
    let made = (0..ROUNDS).flat_map(|_| sift_lines::round(&mut random)).collect();
    inputs.extend(pack(made).into_iter().map(|block| block.bytes));
    inputs
}

/// The same for the lines that the fast `calls` knows.
pub fn inputs_for_fast_calls() -> Vec<Vec<u8>> {
    let mut random = Random::new(13);
    let mut for_lines = Random::new(14);
    let special = special_inputs(&mut random, &mut || calls_lines::any_line(&mut for_lines));
    let mut inputs: Vec<Vec<u8>> =
        special.into_iter().map(|input| lines_for_fast_calls(&input.1)).collect();
    let made = (0..ROUNDS).flat_map(|_| calls_lines::round(&mut random)).collect();
    inputs.extend(pack(made).into_iter().map(|block| lines_for_fast_calls(&block.bytes)));
    inputs
}

/// An answerer of whole inputs.
type Program = fn(&[u8]) -> Vec<u8>;

fn agree(name: &str, inputs: &[Vec<u8>], ours: Program, fast: Program) -> Result<String, String> {
    let mut count = 0;
    for input in inputs {
        if let Some(difference) = first_difference(input, &ours(input), &fast(input)) {
            return Err(format!("{name}: {difference}"));
        }
        count += lines(input).len();
    }
    Ok(format!("{name} agrees with the reference on {count} lines in {} inputs", inputs.len()))
}

pub fn fast_sift_agrees() -> Result<String, String> {
    agree("fast_sift", &inputs_for_sift(), sift::output, fast_sift::output)
}

pub fn fast_calls_agrees() -> Result<String, String> {
    agree("fast_calls", &inputs_for_fast_calls(), calls::output, fast_calls::output)
}

/// All checks, each line printed as it is met.
pub fn run_all() -> Result<(), String> {
    for check in [published_values, fast_sift_agrees, fast_calls_agrees] {
        println!("{}", check()?);
    }
    Ok(())
}

#[cfg(test)]
mod tests {
    #[test]
    fn fast_sift() {
        super::fast_sift_agrees().expect("agrees");
    }

    #[test]
    fn fast_calls() {
        super::fast_calls_agrees().expect("agrees");
    }
}
