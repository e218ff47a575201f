//! Lines for `sift`. Each recipe is made so that a rare case is certain or
//! likely; what really came out is asked of the reference and counted.

use crate::blocks::{Made, MALFORMED};
use crate::defects::*;
use crate::poly::*;
use crate::random::Random;
use crate::rules::with_parity;
use crate::sensor::{
    densest, first_bit_agrees, invert, low_bits, remainder_of_bit, windows, HIGHEST_LIMIT,
};
use crate::solve::eliminate;
use crate::text::hex;
use crate::vectors::factors;

/// The group of lines made with a changed bit that is not marked low.
pub const MISSED: &str = "a changed bit without a low mark, and no fit";

/// Both message lengths.
pub const LENGTHS: [usize; 2] = [56, 112];

/// A line as its four columns.
fn columns(message: &[u8], confidence: &[u8], word: u32, limit: &str) -> [Column; 4] {
    [
        (Sort::Bytes, hex(message).into_bytes()),
        (Sort::Bytes, hex(confidence).into_bytes()),
        (Sort::Word, format!("{word:06X}").into_bytes()),
        (Sort::Limit, limit.as_bytes().to_vec()),
    ]
}

/// A line of a message and its low marks, both as bits.
pub fn line(message: &[bool], low: &[bool], word: u32, limit: usize) -> Vec<u8> {
    join(&columns(&bytes_of_bits(message), &bytes_of_bits(low), word, &limit.to_string()))
}

/// An expected word: an address, at times an interrogator's code, 000000 or
/// FFFFFF.
fn expected_word(random: &mut Random) -> u32 {
    match random.below(16) {
        0 => 0,
        1 => random.below(128) as u32,
        2 => 0xFF_FFFF,
        _ => random.word(),
    }
}

/// Random bits, each a one with the given probability.
fn noise(random: &mut Random, n: usize, probability: f64) -> Bits {
    (0..n).map(|_| random.chance(probability)).collect()
}

/// A random message that carries the word. Now and then the first bit is the
/// wrong one for the length: the sensor does not refuse it.
fn sealed(random: &mut Random, n: usize, word: u32) -> Bits {
    let mut field = noise(random, n - DEGREE, 0.5);
    field[0] = (n == 112) != random.one_in(8);
    with_parity(&field, word)
}

/// Message bits of a burst in a window, 1 to 24 of them. The window's first bit
/// is one of them, so that no higher window holds the burst.
fn burst(random: &mut Random, window: usize) -> Vec<usize> {
    let more = random.below(DEGREE);
    let mut bits = vec![window + 1];
    bits.extend(random.choose(more, DEGREE - 1).iter().map(|k| window + 2 + k));
    bits
}

fn burst_anywhere(random: &mut Random, n: usize) -> Vec<usize> {
    let window = random.below(n - DEGREE + 1);
    burst(random, window)
}

/// A limit about the highest density of these marks: just enough, one too low,
/// the highest there is, or any.
fn limit_about(random: &mut Random, low: &[bool]) -> usize {
    let needed = densest(low);
    match random.below(8) {
        0..=2 => needed,
        3 => needed.saturating_sub(1),
        4..=6 => HIGHEST_LIMIT as usize,
        _ => random.below(25),
    }
}

/// Marks more bits: in a window with one probability, elsewhere with another.
fn mark_more(random: &mut Random, low: &mut [bool], window: usize) {
    let inside = *random.pick(&[0.0, 0.1, 0.3, 0.7]);
    let outside = *random.pick(&[0.0, 0.0, 0.02, 0.1]);
    for (index, mark) in low.iter_mut().enumerate() {
        let near = (window..window + DEGREE).contains(&index);
        *mark |= random.chance(if near { inside } else { outside });
    }
}

/// A reply that carries its word, under any marks and any limit.
fn clean(random: &mut Random, n: usize) -> Made {
    let word = expected_word(random);
    let message = sealed(random, n, word);
    let probability = *random.pick(&[0.0, 0.05, 0.5, 1.0]);
    let low = noise(random, n, probability);
    let limit = random.below(25);
    Made::plain(line(&message, &low, word, limit))
}

/// A reply with a burst in a window, all changed bits marked low.
fn hit(random: &mut Random, n: usize, window: usize) -> Made {
    let word = expected_word(random);
    let sent = sealed(random, n, word);
    let changed = burst(random, window);
    let mut low = invert(&vec![false; n], &changed);
    mark_more(random, &mut low, window);
    let limit = limit_about(random, &low);
    Made::plain(line(&invert(&sent, &changed), &low, word, limit))
}

/// The same with the mark of one changed bit missing.
fn missed(random: &mut Random, n: usize, window: usize) -> Made {
    let word = expected_word(random);
    let sent = sealed(random, n, word);
    let changed = burst(random, window);
    let mut low = invert(&vec![false; n], &changed);
    mark_more(random, &mut low, window);
    low[random.pick(&changed) - 1] = false;
    let text = line(&invert(&sent, &changed), &low, word, HIGHEST_LIMIT as usize);
    Made::aimed(text, MISSED, n, Some("nofit"))
}

/// The only change in a window that has the given remainder, all its bits taken
/// as low.
pub fn change_in(n: usize, window: usize, syndrome: u32) -> Vec<usize> {
    let bits = low_bits(&vec![true; n], window);
    let remainders: Vec<u32> = bits.iter().map(|bit| remainder_of_bit(n, *bit)).collect();
    let chosen = eliminate(&remainders, syndrome).expect("24 independent remainders");
    bits.into_iter().zip(chosen).filter(|(_, chosen)| *chosen).map(|(bit, _)| bit).collect()
}

pub fn remainder_of_change(n: usize, bits: &[usize]) -> u32 {
    bits.iter().fold(0, |sum, bit| sum ^ remainder_of_bit(n, *bit))
}

/// A reply hit in window `first`, with the marks also on the change that window
/// `second` has for the same syndrome, and at times on a third one's.
fn two_changes(random: &mut Random, n: usize, first: usize, second: usize) -> Made {
    let word = expected_word(random);
    let sent = sealed(random, n, word);
    let changed = burst(random, first);
    let syndrome = remainder_of_change(n, &changed);
    let mut low = invert(&vec![false; n], &changed);
    let mut others = vec![second];
    if random.one_in(4) {
        others.push(random.from_to(first, n - DEGREE));
    }
    for window in others {
        for bit in change_in(n, window, syndrome) {
            low[bit - 1] = true;
        }
    }
    let limit = limit_about(random, &low);
    Made::plain(line(&invert(&sent, &changed), &low, word, limit))
}

/// A reply with the right first bit, hit in a later window, with the marks also on
/// a change of window 0 that would invert the first bit. Where the mark of a bit
/// that was hit is missing, that change is all there is.
fn first_bit(random: &mut Random, n: usize, missing: bool) -> Made {
    let word = expected_word(random);
    let mut sent = sealed(random, n, word);
    while !first_bit_agrees(&sent) {
        sent = sealed(random, n, word);
    }
    let (changed, other) = loop {
        let window = random.from_to(1, n - DEGREE);
        let changed = burst(random, window);
        let other = change_in(n, 0, remainder_of_change(n, &changed));
        if other.contains(&1) {
            break (changed, other);
        }
    };
    let mut low = invert(&vec![false; n], &changed);
    if missing {
        low[changed[0] - 1] = false;
    }
    for bit in other {
        low[bit - 1] = true;
    }
    Made::plain(line(&invert(&sent, &changed), &low, word, HIGHEST_LIMIT as usize))
}

/// A 24-bit pattern and a distance, such that the pattern has one remainder in
/// any two windows that far apart. G / (1 + x) serves for every distance; a
/// multiple of the factor of degree 17 for multiples of 21, since the two other
/// factors divide x^21 + 1.
fn pattern_and_distance(random: &mut Random, n: usize) -> (Bits, usize) {
    let [_, six, seventeen] = factors();
    if random.one_in(2) {
        return (product(&six, &seventeen), random.from_to(1, n - DEGREE));
    }
    let multiplier = bits_of_word(random.from_to(1, 127) as u32, 7);
    let times = random.from_to(1, (n - DEGREE) / 21);
    (product(&seventeen, &multiplier), 21 * times)
}

/// The message bits of a 24-bit pattern in a window.
fn placed(pattern: &[bool], window: usize) -> Vec<usize> {
    assert_eq!(pattern.len(), DEGREE);
    (0..DEGREE).filter(|k| pattern[*k]).map(|k| window + 1 + k).collect()
}

/// A reply hit by a pattern that fits, bit for bit the same, in two windows.
fn equal_patterns(random: &mut Random, n: usize) -> Made {
    let (pattern, distance) = pattern_and_distance(random, n);
    let first = random.from_to(0, n - DEGREE - distance);
    let word = expected_word(random);
    let sent = sealed(random, n, word);
    let changed = placed(&pattern, first);
    let mut low = invert(&vec![false; n], &changed);
    for bit in placed(&pattern, first + distance) {
        low[bit - 1] = true;
    }
    let limit = if random.one_in(2) { densest(&low) } else { HIGHEST_LIMIT as usize };
    Made::plain(line(&invert(&sent, &changed), &low, word, limit))
}

/// A message of no known seal, any marks, any limit.
fn unsealed(random: &mut Random, n: usize) -> Made {
    let message = noise(random, n, 0.5);
    let probability = *random.pick(&[0.0, 0.05, 0.1, 0.2, 0.4, 0.6, 0.9, 1.0]);
    let low = noise(random, n, probability);
    let word = expected_word(random);
    let limit = limit_about(random, &low);
    Made::plain(line(&message, &low, word, limit))
}

/// A reply to which `window` is the lowest with more low marks than the limit:
/// as many as the limit before the window's last bit, and the last bit.
fn dense(random: &mut Random, n: usize, window: usize) -> Made {
    let word = expected_word(random);
    let sent = sealed(random, n, word);
    let changed = burst_anywhere(random, n);
    let limit = random.below(DEGREE);
    let mut low = vec![false; n];
    for k in random.choose(limit, DEGREE - 1) {
        low[window + k] = true;
    }
    low[window + DEGREE - 1] = true;
    for mark in &mut low[window + DEGREE..] {
        *mark = random.one_in(4);
    }
    Made::plain(line(&invert(&sent, &changed), &low, word, limit))
}

/// The marks of a run of bits, or of all, are low.
fn broad(random: &mut Random, n: usize) -> Made {
    let word = expected_word(random);
    let sent = sealed(random, n, word);
    let changed = burst_anywhere(random, n);
    let from = random.below(n);
    let to = random.from_to(from, n);
    let all = random.one_in(3);
    let low: Bits = (0..n).map(|index| all || (from..to).contains(&index)).collect();
    let limit = limit_about(random, &low);
    Made::plain(line(&invert(&sent, &changed), &low, word, limit))
}

/// A call that rows 1, 2 or 4 may refuse, one or several of them. Half of the
/// messages of a right length carry the word.
fn refused(random: &mut Random) -> Made {
    let right = *random.pick(&[7, 14]);
    let length = if random.one_in(2) { right } else { random.from_to(1, 14) };
    let other = if random.one_in(2) { length } else { random.from_to(1, 14) };
    let word = expected_word(random);
    let message = if length == right && random.one_in(2) {
        bytes_of_bits(&sealed(random, 8 * right, word))
    } else {
        random.bytes(length)
    };
    let limit = if random.one_in(2) { random.below(25) } else { random.from_to(25, 99) };
    let confidence = random.bytes(other);
    Made::plain(join(&columns(&message, &confidence, word, &limit.to_string())))
}

/// A well-formed line that the sensor does not refuse, as columns; the limit
/// has one or two digits.
fn well_formed(random: &mut Random) -> [Column; 4] {
    let n = *random.pick(&LENGTHS);
    let word = expected_word(random);
    let changed = burst_anywhere(random, n);
    let message = invert(&sealed(random, n, word), &changed);
    let low = invert(&vec![false; n], &changed);
    let limit = random.below(25);
    let limit = if random.one_in(2) { format!("{limit:02}") } else { limit.to_string() };
    columns(&bytes_of_bits(&message), &bytes_of_bits(&low), word, &limit)
}

/// A well-formed line.
pub fn any_line(random: &mut Random) -> Vec<u8> {
    join(&well_formed(random))
}

/// Replaces the text of a column.
fn with(columns: &[Column], place: usize, text: &[u8]) -> Option<Vec<u8>> {
    let mut columns = columns.to_vec();
    columns[place].1 = text.to_vec();
    Some(join(&columns))
}

/// Defects of `sift`'s columns.
const OF_SIFT: [Defect; 14] = [
    ("message of 15 bytes", |columns, _| with(columns, 0, &[b'0'; 30])),
    ("confidence of 15 bytes", |columns, _| with(columns, 1, &[b'0'; 30])),
    ("message of 400 bytes", |columns, _| with(columns, 0, &[b'7'; 800])),
    ("message of one digit", |columns, _| with(columns, 0, b"0")),
    ("confidence of one digit", |columns, _| with(columns, 1, b"8")),
    ("message a dash", |columns, _| with(columns, 0, b"-")),
    ("word of 5 digits", |columns, _| with(columns, 2, b"12345")),
    ("word of 7 digits", |columns, _| with(columns, 2, b"0123456")),
    ("word of 8 digits", |columns, _| with(columns, 2, b"00123456")),
    ("limit of 3 digits", |columns, random| {
        let text = format!("{:03}", random.below(1000));
        with(columns, 3, text.as_bytes())
    }),
    ("limit of 20 digits", |columns, _| with(columns, 3, b"00000000000000000024")),
    ("limit with a hexadecimal digit", |columns, random| {
        let text = *random.pick(&[b"A", b"F", b"C"]);
        with(columns, 3, text)
    }),
    ("limit not a whole number", |columns, _| with(columns, 3, b"1.")),
    ("the header line", |_, _| Some(b"line answer window bits mark message".to_vec())),
];

/// All defects that lines for `sift` get.
pub fn defects() -> Vec<Defect> {
    [&OF_THE_LINE[..], &OF_A_NUMBER[..], &OF_SIFT[..]].concat()
}

/// One line of each recipe for a reply that is not refused.
pub fn one_of_each(random: &mut Random, n: usize) -> Vec<Made> {
    let last = n - DEGREE;
    let window = random.below(last);
    let later = random.from_to(window + 1, last);
    vec![
        clean(random, n),
        hit(random, n, later),
        dense(random, n, window),
        two_changes(random, n, window, later),
        equal_patterns(random, n),
        missed(random, n, later),
        unsealed(random, n),
        broad(random, n),
        first_bit(random, n, false),
        first_bit(random, n, true),
    ]
}

/// Lines of all recipes, every window once or more, in a random order.
pub fn round(random: &mut Random) -> Vec<Made> {
    let mut made = spoiled(random, MALFORMED, defects(), well_formed);
    for n in LENGTHS {
        let last = n - DEGREE;
        for window in windows(n) {
            made.push(hit(random, n, window));
            made.push(dense(random, n, window));
            if window < last {
                let furthest = if random.one_in(2) { last } else { last.min(window + DEGREE) };
                let second = random.from_to(window + 1, furthest);
                made.push(two_changes(random, n, window, second));
            }
        }
        for _ in 0..20 {
            made.push(clean(random, n));
            made.push(broad(random, n));
            made.push(equal_patterns(random, n));
            made.push(first_bit(random, n, false));
            made.push(first_bit(random, n, true));
            let window = random.below(last + 1);
            made.push(missed(random, n, window));
        }
        made.extend((0..50).map(|_| unsealed(random, n)));
    }
    made.extend((0..80).map(|_| refused(random)));
    made.extend((0..40).map(|_| Made::plain(any_line(random))));
    for _ in 0..60 {
        let line = any_line(random);
        made.push(Made::plain(mutated(&line, random)));
    }
    random.shuffle(&mut made);
    made
}

#[cfg(test)]
mod tests {
    use super::*;

    #[test]
    fn every_defect_spoils_every_line() {
        let mut random = Random::new(22);
        for _ in 0..50 {
            for (name, spoil) in defects() {
                let columns = well_formed(&mut random);
                assert!(crate::sift::read(&join(&columns)).is_some());
                let line = spoil(&columns, &mut random).expect("sift has such a column");
                assert!(crate::sift::read(&line).is_none(), "{name}: {}", line.escape_ascii());
            }
        }
    }

    #[test]
    fn equal_patterns_have_one_remainder() {
        let mut random = Random::new(10);
        for n in LENGTHS {
            for _ in 0..500 {
                let (pattern, distance) = pattern_and_distance(&mut random, n);
                let first = random.from_to(0, n - DEGREE - distance);
                let remainder = |window| remainder_of_change(n, &placed(&pattern, window));
                assert_eq!(remainder(first), remainder(first + distance));
            }
        }
    }

    #[test]
    fn the_change_in_a_window_has_the_remainder() {
        let mut random = Random::new(15);
        for n in LENGTHS {
            for window in windows(n) {
                let syndrome = random.word() | 1;
                let change = change_in(n, window, syndrome);
                assert_eq!(remainder_of_change(n, &change), syndrome);
            }
        }
    }
}
