//! The subcommand `speed ROSTER`: what a call on the roll-call table costs, beside
//! a `BTreeMap` of the standard library in this process.
//!
//! `roster` does the same for every line but the call, so it is run on an input of
//! calls and on one with as many lines that set the count to what it is; the
//! difference, divided by the lines, is the time of a call (with what its answer
//! takes longer to read and print).

use crate::roster::{self, LONGEST};
use crate::run::{first_difference, run, Feed, TemporaryFile};
use crate::speed::{median, seconds};
use crate::text::MOST_BYTES;
use std::collections::BTreeMap;
use std::hint::black_box;
use std::path::Path;
use std::time::Instant;

/// The runs on each input; medians are taken.
const RUNS: usize = 101;

/// The runs of the calls on the map.
const ROUNDS: usize = 1000;

const LENGTHS: [usize; 3] = [10, 100, LONGEST];

type Map = BTreeMap<u32, (Option<i32>, u64, u8)>;

/// A sort of call: what its line says of an address at a time, and what it does to a
/// map.
struct Sort {
    name: &'static str,
    lines: fn(u32, usize) -> Vec<String>,
    on_map: fn(&mut Map, u32),
}

const SORTS: [Sort; 3] = [
    Sort {
        name: "find",
        lines: |address, _| vec![format!("find {address:06X}")],
        on_map: |map, address| {
            black_box(map.get(&address));
        },
    },
    Sort {
        name: "renew",
        lines: |address, time| vec![format!("add {address:06X} 1000 {time} 0")],
        on_map: |map, address| {
            black_box(map.insert(address, (Some(1000), 5, 0)));
        },
    },
    Sort {
        name: "remove, or add",
        lines: |address, _| {
            vec![format!("remove {address:06X}"), format!("add {address:06X} 1000 5 0")]
        },
        on_map: |map, address| {
            black_box(map.remove(&address));
            black_box(map.insert(address, (Some(1000), 5, 0)));
        },
    },
];

/// Addresses that lie apart, in no order.
fn addresses(length: usize) -> Vec<u32> {
    (1..=length as u32).map(|k| k.wrapping_mul(0x9E_3779) & 0xFF_FFFF).collect()
}

/// A full table of a length.
fn filling(length: usize) -> String {
    let adds = addresses(length).into_iter().map(|address| format!("add {address:06X} 0 0 0\n"));
    format!("table {length} {length}\n{}", adds.collect::<String>())
}

/// As many calls as an input holds; and as many lines as long that set the count.
fn inputs(sort: &Sort, length: usize) -> (String, String, usize) {
    let mut calls = filling(length);
    let mut counts = calls.clone();
    let mut made = 0;
    'full: loop {
        for address in addresses(length) {
            let lines = (sort.lines)(address, 1 + made);
            if calls.len() + lines.iter().map(|line| line.len() + 1).sum::<usize>() > MOST_BYTES {
                break 'full;
            }
            for line in lines {
                calls += &format!("{line}\n");
                // a number has at most twenty digits
                let width = (line.len() - "count ".len()).min(20);
                counts += &format!("count {length:0width$}\n");
                made += 1;
            }
        }
    }
    (calls, counts, made)
}

/// Nanoseconds of a call on a map.
fn on_map(sort: &Sort, length: usize) -> f64 {
    let addresses = addresses(length);
    let mut map: Map = addresses.iter().map(|address| (*address, (Some(0), 0, 0))).collect();
    let calls = (sort.lines)(0, 0).len() * addresses.len();
    let rounds = ROUNDS * LENGTHS[2] / length;
    let start = Instant::now();
    for _ in 0..rounds {
        for address in &addresses {
            (sort.on_map)(&mut map, black_box(*address));
        }
    }
    1e9 * start.elapsed().as_secs_f64() / (rounds * calls) as f64
}

/// Nanoseconds of a call of the built program, over a line that is none.
fn on_table(program: &Path, sort: &Sort, length: usize) -> Result<(f64, usize), String> {
    let (calls, counts, made) = inputs(sort, length);
    for input in [&calls, &counts] {
        let expected = roster::output(input.as_bytes());
        let output = run(program, input.as_bytes(), Feed::File)?;
        if let Some(difference) = first_difference(input.as_bytes(), &expected, &output) {
            return Err(difference);
        }
    }
    let files = [TemporaryFile::new(calls.as_bytes())?, TemporaryFile::new(counts.as_bytes())?];
    let mut times = [(); 2].map(|()| Vec::with_capacity(RUNS));
    for _ in 0..RUNS {
        for (times, file) in times.iter_mut().zip(&files) {
            times.push(seconds(program, file)?);
        }
    }
    let [calls, counts] = times.map(median);
    Ok((1e9 * (calls - counts) / made as f64, made))
}

/// Measures all and prints the table.
pub fn speed(program: &Path) -> Result<(), String> {
    println!("Nanoseconds of a call; `roster`: medians of {RUNS} runs, less those of lines that are no calls.\n");
    println!("| records | call | calls in a run | roster | BTreeMap |");
    println!("|--:|---|--:|--:|--:|");
    for length in LENGTHS {
        for sort in &SORTS {
            let (table, made) = on_table(program, sort, length)?;
            let map = on_map(sort, length);
            println!("| {length} | {} | {made} | {table:.0} | {map:.0} |", sort.name);
        }
    }
    Ok(())
}

#[cfg(test)]
mod tests {
    use super::*;

    #[test]
    fn every_line_is_answered_as_it_is_meant() {
        for length in LENGTHS {
            for sort in &SORTS {
                let (calls, counts, made) = inputs(sort, length);
                assert!(calls.len() <= MOST_BYTES && counts.len() <= MOST_BYTES && made > 1000);
                let words = |input: &str| {
                    let output = String::from_utf8(roster::output(input.as_bytes())).expect("text");
                    let word = |line: &str| line.split(' ').nth(1).expect("a word").to_string();
                    output.lines().map(word).skip(1 + length).collect::<Vec<String>>()
                };
                let meant = ["found", "renewed", "removed", "added"];
                assert!(words(&calls).iter().all(|word| meant.contains(&word.as_str())));
                assert!(words(&counts).iter().all(|word| word == "set"));
                assert_eq!([words(&calls).len(), words(&counts).len()], [made; 2]);
            }
        }
    }
}
