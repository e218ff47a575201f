//! The subcommand `speed`: nanoseconds a reply in `mode_s_remainders`, beside a
//! loop in Rust by the byte table (the division of crosscheck's `fast_sift`), and
//! nanoseconds a call of `mode_s_seal_reply` and of `mode_s_correct`, beside the
//! same in Rust; in one run, in turn, on the same calls. Each call of the two has
//! its own copy of the message, made before the clock starts.

use crate::library;
use crosscheck::fast_sift::{dense_window, fits, number_of, remainder};
use crosscheck::poly::{bits_of_bytes, bytes_of_bits};
use crosscheck::random::Random;
use crosscheck::rules::with_parity;
use std::hint::black_box;
use std::time::Instant;

/// The calls of each kind, and the runs over them; the fastest run counts.
const CALLS: usize = 10_000;
const RUNS: usize = 201;

/// The long replies of a recording, and the runs over it.
const REPLIES: usize = 1_000_000;
const RECORDING_RUNS: usize = 51;

#[derive(Clone)]
struct Call {
    message: [u8; 14],
    confidence: [u8; 14],
    word: u32,
    limit: u32,
}

/// The sensor on 14 bytes in Rust, with the same number.
fn correct_in_rust(call: &mut Call) -> u64 {
    let syndrome = remainder(&call.message) ^ call.word;
    if syndrome == 0 {
        return 7;
    }
    let mut bytes = [0; 16];
    bytes[..14].copy_from_slice(&call.confidence);
    let low = number_of(bytes, 14);
    if let Some(window) = dense_window(low, 89, call.limit) {
        return u64::from(window) << 24 | 8;
    }
    match fits(low, 89, syndrome, call.message[0] >= 0x80) {
        None => 9,
        Some((place, candidate, several)) => {
            bytes[..14].copy_from_slice(&call.message);
            let corrected = number_of(bytes, 14) ^ u128::from(candidate) << place;
            call.message.copy_from_slice(&corrected.to_be_bytes()[2..]);
            let (ones, window) = (u64::from(candidate.count_ones()), u64::from(88 - place));
            ones << 32 | window << 24 | (1 + u64::from(several)) << 16 | 10
        }
    }
}

fn correct_in_c(call: &mut Call) -> u64 {
    library::correct_slices(&mut call.message, &call.confidence, call.word, call.limit)
}

/// The reply seal on 14 bytes in Rust, by the byte table.
fn seal_in_rust(call: &mut Call) -> u64 {
    call.message[11..].fill(0);
    let parity = remainder(&call.message) ^ call.word;
    call.message[11..].copy_from_slice(&parity.to_be_bytes()[1..]);
    2
}

fn seal_in_c(call: &mut Call) -> u64 {
    library::seal_slice(&mut call.message, call.word)
}

/// A long reply that carries its word, hit in eight bits of a window (unless it
/// is to be clean), with these bits marked low, or others, and some more.
fn call(random: &mut Random, kind: &str) -> Call {
    let word = random.word();
    let mut field = random.bytes(11);
    field[0] |= 0x80;
    let sent = bytes_of_bits(&with_parity(&bits_of_bytes(&field), word));
    let mut message: [u8; 14] = sent.try_into().expect("14 bytes");
    let mut confidence = [0; 14];
    let window = random.below(89);
    for bit in random.choose(8, 24).into_iter().map(|bit| window + bit) {
        let mask = 0x80 >> (bit % 8);
        if kind != "clean" {
            message[bit / 8] ^= mask;
        }
        if kind != "no fit" {
            confidence[bit / 8] |= mask;
        }
    }
    let limit = if kind == "dense" { 7 } else { 14 };
    Call { message, confidence, word, limit }
}

/// The fastest run over all calls, in nanoseconds a call.
fn fastest(calls: &[Call], correct: fn(&mut Call) -> u64, best: &mut f64) {
    let mut copies = calls.to_vec();
    let start = Instant::now();
    for call in &mut copies {
        black_box(correct(black_box(call)));
    }
    *best = best.min(start.elapsed().as_nanos() as f64 / calls.len() as f64);
}

/// One million long replies, divided in one call and by a loop in Rust, and the
/// fastest of some runs of each. False where a remainder differs.
fn recording(random: &mut Random) -> bool {
    let replies = random.bytes(14 * REPLIES);
    let (mut ours, mut theirs) = (vec![0; REPLIES], vec![0; REPLIES]);
    let (mut our_time, mut their_time) = (f64::INFINITY, f64::INFINITY);
    for _ in 0..RECORDING_RUNS {
        let start = Instant::now();
        let number = library::remainders_of_slices(black_box(&replies), black_box(&mut ours));
        our_time = our_time.min(start.elapsed().as_nanos() as f64 / REPLIES as f64);
        let start = Instant::now();
        for (word, reply) in black_box(&mut theirs).iter_mut().zip(replies.chunks_exact(14)) {
            *word = remainder(reply);
        }
        black_box(&theirs);
        their_time = their_time.min(start.elapsed().as_nanos() as f64 / REPLIES as f64);
        if number != 11 || ours != theirs {
            println!("WRONG: a recording: {number:016X}, or a remainder differs");
            return false;
        }
    }
    println!("nanoseconds a reply of {REPLIES}: mode_s_remainders, Rust by the byte table, ratio");
    println!("{our_time:17.2} {their_time:7.2} {:6.2}", our_time / their_time);
    true
}

/// The fastest runs of two ways to do one kind of call, in a line of the table.
/// False where they do not agree.
fn race(name: &str, calls: &[Call], number: u64, ways: [fn(&mut Call) -> u64; 2]) -> bool {
    for call in calls {
        let (mut ours, mut theirs) = (call.clone(), call.clone());
        let (x, y) = (ways[0](&mut ours), ways[1](&mut theirs));
        if x != y || x & 0xFF != number || ours.message != theirs.message {
            println!("WRONG: {name}: {x:016X} and {y:016X}");
            return false;
        }
    }
    let (mut ours, mut theirs) = (f64::INFINITY, f64::INFINITY);
    for _ in 0..RUNS {
        fastest(calls, ways[0], &mut ours);
        fastest(calls, ways[1], &mut theirs);
    }
    println!("{name:9} {ours:7.1} {theirs:7.1} {:6.2}", ours / theirs);
    true
}

/// False where the two do not agree.
pub fn speed() -> bool {
    let mut random = Random::new(112);
    if !recording(&mut random) {
        return false;
    }
    println!("nanoseconds a call, 112 bits: answer, C library, Rust, ratio");
    let mut sets = ["clean", "corrected", "dense", "no fit"].map(|kind| {
        let calls: Vec<Call> = (0..CALLS).map(|_| call(&mut random, kind)).collect();
        (kind, calls)
    });
    let sealed: Vec<Call> = sets[0].1.clone();
    race("sealed", &sealed, 2, [seal_in_c, seal_in_rust])
        && sets.iter_mut().zip([7, 10, 8, 9]).all(|((kind, calls), number)| {
            race(kind, calls, number, [correct_in_c, correct_in_rust])
        })
}
