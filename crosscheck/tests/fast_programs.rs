//! The programs written for speed, as processes, against the reference.

use crosscheck::run::{first_difference, run, Feed};
use crosscheck::{calls, selftest, sift};
use std::path::Path;

fn agrees(program: &str, inputs: Vec<Vec<u8>>, reference: fn(&[u8]) -> Vec<u8>) {
    for (index, input) in inputs.iter().enumerate() {
        let feed = Feed::ALL[index % 3];
        let output = run(Path::new(program), input, feed).expect("it runs");
        assert_eq!(first_difference(input, &reference(input), &output), None);
    }
}

#[test]
fn fast_sift_as_a_process() {
    agrees(env!("CARGO_BIN_EXE_fast_sift"), selftest::inputs_for_sift(), sift::output);
}

#[test]
fn fast_calls_as_a_process() {
    agrees(env!("CARGO_BIN_EXE_fast_calls"), selftest::inputs_for_fast_calls(), calls::output);
}
