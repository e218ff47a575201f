//! What the calls are given: messages of both lengths and of others, sealed,
//! hit or random, and words and limits within their range and beyond it.

use crosscheck::poly::{bits_of_bytes, bytes_of_bits};
use crosscheck::random::Random;
use crosscheck::rules::{interrogation_seal, with_parity, HIGHEST};

/// The bytes of a message: 7 or 14 mostly, else any number up to 32.
fn length(random: &mut Random) -> usize {
    if random.one_in(16) {
        random.from_to(0, 32)
    } else {
        *random.pick(&[7, 14])
    }
}

/// Random bytes; the first bit agrees with the length seven times in eight.
pub fn message(random: &mut Random) -> Vec<u8> {
    let length = length(random);
    let mut bytes = random.bytes(length);
    if let Some(first) = bytes.first_mut() {
        if !random.one_in(8) {
            *first = *first & 0x7F | if length == 14 { 0x80 } else { 0 };
        }
    }
    bytes
}

/// A word of 24 bits mostly, or a small one, or one above FFFFFF.
pub fn word(random: &mut Random) -> u32 {
    match random.below(16) {
        0 => *random.pick(&[0, 1, HIGHEST - 1, HIGHEST]),
        1 => *random.pick(&[HIGHEST + 1, 0x123_4567, u32::MAX, 0x8000_0000]),
        2 => random.number() as u32,
        _ => random.word(),
    }
}

/// An own address and an interrogation: sealed for that address, for another or
/// for all, in a format that matters, or not sealed at all; one in four is hit.
pub fn interrogation(random: &mut Random) -> (u32, Vec<u8>) {
    let own = word(random);
    let mut bytes = message(random);
    if bytes.len() == 7 && random.one_in(2) {
        bytes[0] = 11 << 3 | bytes[0] & 7;
    }
    if bytes.len() == 14 && random.one_in(2) {
        bytes[0] = *random.pick(&[20, 21, 22, 24]) << 3 | bytes[0] & 7;
    }
    let address = match random.below(4) {
        0 => own,
        1 => HIGHEST,
        2 => word(random),
        _ => return (own, bytes),
    };
    let mut sealed = interrogation_seal(&bytes, address).unwrap_or(bytes);
    if random.one_in(4) {
        hit(random, &mut sealed);
    }
    (own, sealed)
}

/// Inverts one or more bits within 24 consecutive ones; the bits inverted, as a
/// message of their own.
fn hit(random: &mut Random, bytes: &mut [u8]) -> Vec<u8> {
    let mut inverted = vec![0; bytes.len()];
    if bytes.len() >= 3 {
        let window = random.below(8 * bytes.len() - 23);
        let count = random.from_to(1, 24);
        for bit in random.choose(count, 24) {
            inverted[(window + bit) / 8] |= 0x80 >> ((window + bit) % 8);
        }
    }
    for (byte, change) in bytes.iter_mut().zip(&inverted) {
        *byte ^= change;
    }
    inverted
}

/// Marks: the given bits, and others, few or many; all bits at times, and now
/// and then one of the given bits is not marked.
fn marks(random: &mut Random, changed: &[u8]) -> Vec<u8> {
    let mut marks = changed.to_vec();
    if random.one_in(12) {
        return vec![0xFF; marks.len()];
    }
    let bits = 8 * marks.len();
    for _ in 0..*random.pick(&[0, 0, 1, 3, 8, 20]) {
        let bit = random.below(bits.max(1));
        if bit < bits {
            marks[bit / 8] |= 0x80 >> (bit % 8);
        }
    }
    if random.one_in(6) && bits > 0 {
        let byte = random.below(marks.len());
        marks[byte] = 0;
    }
    marks
}

/// A call of the sensor: a reply that carries the word, hit more often than not,
/// or any bytes; its marks, of another length at times; the word and the limit.
pub struct Sensed {
    pub message: Vec<u8>,
    pub confidence: Vec<u8>,
    pub word: u32,
    pub limit: u32,
}

pub fn sensed(random: &mut Random) -> Sensed {
    let word = word(random);
    let mut bytes = message(random);
    if bytes.len() >= 3 && !random.one_in(8) {
        let field = bits_of_bytes(&bytes[..bytes.len() - 3]);
        bytes = bytes_of_bits(&with_parity(&field, word & HIGHEST));
    }
    let changed = if random.one_in(5) { vec![0; bytes.len()] } else { hit(random, &mut bytes) };
    let mut confidence = marks(random, &changed);
    if random.one_in(24) {
        let length = random.from_to(0, 32);
        confidence.resize(length, 0xFF);
    }
    let limit = match random.below(16) {
        0 => *random.pick(&[25, 26, 255, 256, u32::MAX]),
        1..=3 => random.below(25) as u32,
        _ => 24,
    };
    Sensed { message: bytes, confidence, word, limit }
}

/// A recording and the number of words lent for it: a few long replies, none at
/// times, and now and then some bytes or words too many or too few.
pub fn recording(random: &mut Random) -> (Vec<u8>, usize) {
    let count = *random.pick(&[0, 1, 1, 2, 3, 7, 20]);
    let (length, words) = match random.below(8) {
        0 => (14 * count + random.from_to(1, 13), count),
        1 => (14 * count, count + random.from_to(1, 3)),
        2 => (14 * (count + 1), count),
        3 => (random.from_to(0, 40), random.from_to(0, 3)),
        _ => (14 * count, count),
    };
    (random.bytes(length), words)
}
