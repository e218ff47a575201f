//! What `recording` has to print: `sift`'s answers without `sift`'s limit. And the cuts
//! of a recording, after which it has to print the same.

use crate::random::Random;
use crate::run::{first_difference, run_in_cuts};
use crate::tally::{Group, Tally};
use crate::{fast_sift, sift, sift_lines};
use std::path::Path;

pub fn output(input: &[u8]) -> Vec<u8> {
    sift::answers_and_show(input, |_, _| ())
}

/// The group of the places where a cut falls.
const CUT: &str = "cuts of a small recording, each alone, by what stands before and after";

/// The group of the recordings that are cut in many places.
const CUT_OFTEN: &str = "recordings cut in many places";

const AT_EVERY_BYTE: &str = "a small one, at every byte";
const AT_RANDOM: &str = "a small one, at random places";
const TEN_THOUSAND: &str = "10,000 lines and more, in pieces of 1 to 10,000 bytes";
const LONG_LINE: &str = "a line of 20,000 bytes, in pieces of 1 to 10,000 bytes";
const NOTHING: &str = "pieces of one line feed";

pub fn groups() -> Vec<Group> {
    let sorts = ["digit", "space", "line feed", "another byte"];
    let pairs = sorts.iter().flat_map(|a| sorts.map(|b| format!("{a}, {b}")));
    vec![
        Group::each(CUT, pairs),
        Group::each(CUT_OFTEN, [AT_EVERY_BYTE, AT_RANDOM, TEN_THOUSAND, LONG_LINE, NOTHING]),
    ]
}

fn sort(byte: u8) -> &'static str {
    match byte {
        b'0'..=b'9' | b'A'..=b'F' => "digit",
        b' ' => "space",
        b'\n' => "line feed",
        _ => "another byte",
    }
}

/// Four lines in which every two sorts of bytes stand side by side, between lines of
/// which one is well formed, one of 68 bytes and the last without a line feed.
fn small(random: &mut Random) -> Vec<u8> {
    let mut bytes = sift_lines::any_line(random);
    bytes.extend(b"\n\n \n 1  x\nx x1x \nxx\n");
    bytes.extend([b'0'; 68]);
    bytes.push(b'\n');
    bytes.extend(sift_lines::any_line(random));
    bytes
}

/// Places in rising order, 1 to `most` bytes apart.
fn places(random: &mut Random, size: usize, most: usize) -> Vec<usize> {
    let mut places = Vec::new();
    let mut at = random.from_to(1, most);
    while at < size {
        places.push(at);
        at += random.from_to(1, most);
    }
    places
}

/// The difference of one recording, cut at these places; nothing if there is none.
fn difference(program: &Path, input: &[u8], cuts: &[usize], expected: &[u8]) -> Option<String> {
    match run_in_cuts(program, input, cuts) {
        Err(error) => Some(error),
        Ok(written) if !written.said.is_empty() => Some(format!("said '{}'", written.said)),
        Ok(written) => first_difference(input, expected, &written.output)
            .map(|difference| format!("cut at {cuts:?}: {difference}")),
    }
}

/// Cuts recordings in every way named above; the first difference, if there is one.
pub fn cut_all(program: &Path, random: &mut Random, tally: &mut Tally) -> Option<String> {
    let input = small(random);
    let expected = output(&input);
    for cut in 1..input.len() {
        tally.add(CUT, format!("{}, {}", sort(input[cut - 1]), sort(input[cut])));
        let found = difference(program, &input, &[cut], &expected);
        if found.is_some() {
            return found;
        }
    }
    let every: Vec<usize> = (1..input.len()).collect();
    let mut trials = vec![(AT_EVERY_BYTE, input.clone(), every)];
    for most in [2, 5, 20, 60] {
        for _ in 0..10 {
            trials.push((AT_RANDOM, input.clone(), places(random, input.len(), most)));
        }
    }
    let mut large = Vec::new();
    while large.len() < 700_000 {
        large.extend(sift_lines::any_line(random));
        large.push(b'\n');
    }
    let cuts = places(random, large.len(), 10_000);
    trials.push((TEN_THOUSAND, large, cuts));
    let mut long = sift_lines::any_line(random);
    long.push(b'\n');
    long.extend([b'0'; 20_000]);
    long.push(b'\n');
    long.extend(sift_lines::any_line(random));
    let cuts = places(random, long.len(), 10_000);
    trials.push((LONG_LINE, long, cuts));
    trials.push((NOTHING, vec![b'\n'; 300], (1..300).collect()));
    for (name, input, cuts) in trials {
        tally.add(CUT_OFTEN, name);
        let found = difference(program, &input, &cuts, &fast_sift::answers(&input));
        if found.is_some() {
            return found;
        }
    }
    None
}

#[cfg(test)]
mod tests {
    use super::*;
    use crate::text::MOST_BYTES;

    #[test]
    fn without_a_limit() {
        let long = vec![b'\n'; MOST_BYTES + 1];
        assert_eq!(output(&long), fast_sift::answers(&long));
        assert!(output(&long).ends_with(b"65537 malformed - - - -\n"));
        assert_eq!(output(b"x"), sift::output(b"x"));
    }

    #[test]
    fn a_small_recording_has_every_cut() {
        let input = small(&mut Random::new(1));
        let mut tally = Tally::new(groups());
        for pair in input.windows(2) {
            tally.add(CUT, format!("{}, {}", sort(pair[0]), sort(pair[1])));
        }
        assert!(tally.missing().iter().all(|kind| !kind.starts_with(CUT)), "{:?}", tally.missing());
    }

    #[test]
    fn places_rise() {
        let mut random = Random::new(3);
        for most in [1, 2, 60] {
            let places = places(&mut random, 500, most);
            assert!(places.windows(2).all(|pair| pair[0] < pair[1]));
            assert!(places.iter().all(|place| (1..500).contains(place)));
        }
    }
}
