//! Document 01's sensor by search: in each window the pattern confined to
//! low-confidence bits that makes the message carry the expected word.
//!
//! Division is linear: a message with some bits inverted has the message's
//! remainder plus those of the inverted bits. So a window is asked which of its
//! low bits' remainders add up to the syndrome (`solve`). The tests invert the
//! bits and divide the whole message instead, and come to the same.
//!
//! A fit has to leave a first bit that agrees with the length (document 02,
//! Point 11); one that does not is left out.

use crate::poly::*;
use crate::rules::{above_24_bits, rows_that_apply, wrong_message_length};
use crate::solve::columns_that_add_up_to;

/// The highest density limit.
pub const HIGHEST_LIMIT: u32 = 24;

#[derive(Debug, PartialEq, Eq, Clone, Copy)]
pub enum Mark {
    Sole,
    Several,
}

impl Mark {
    /// The mark's word in the output of both programs.
    pub fn word(self) -> &'static str {
        match self {
            Mark::Sole => "sole",
            Mark::Several => "several",
        }
    }
}

#[derive(Debug, PartialEq, Eq, Clone, Copy)]
pub enum Answer {
    Refused(u8),
    Clean,
    Dense { window: usize },
    NoFit,
    Corrected { window: usize, ones: usize, mark: Mark },
}

impl Answer {
    /// The answer's word in the output of both programs.
    pub fn word(self) -> &'static str {
        match self {
            Answer::Refused(_) => "refused",
            Answer::Clean => "clean",
            Answer::Dense { .. } => "dense",
            Answer::NoFit => "nofit",
            Answer::Corrected { .. } => "corrected",
        }
    }
}

/// A fit: the window it was found in, and the message bits (from 1) it inverts.
#[derive(Debug, PartialEq, Eq, Clone)]
pub struct Fit {
    pub window: usize,
    pub bits: Vec<usize>,
}

/// The answer, the message after the call, and all fits of all windows (none
/// are looked for where the answer is refused, clean or dense); beside them those
/// that would fit but for the first bit.
#[derive(Debug)]
pub struct Verdict {
    pub answer: Answer,
    pub message: Vec<u8>,
    pub fits: Vec<Fit>,
    pub left_out: Vec<Fit>,
}

pub fn sensor_rows(message: &[u8], confidence: &[u8], word: u32, limit: u32) -> Vec<u8> {
    rows_that_apply(&[
        (1, wrong_message_length(message)),
        (2, confidence.len() != message.len()),
        (3, above_24_bits(word)),
        (4, limit > HIGHEST_LIMIT),
    ])
}

/// The windows of an n-bit message: window w covers bits w+1 to w+24.
pub fn windows(n: usize) -> std::ops::RangeInclusive<usize> {
    0..=n - DEGREE
}

/// The low-confidence bits of a window, as message bits from 1.
pub fn low_bits(low: &[bool], window: usize) -> Vec<usize> {
    (window + 1..=window + DEGREE).filter(|bit| low[bit - 1]).collect()
}

/// The highest number of low-confidence bits in a window.
pub fn densest(low: &[bool]) -> usize {
    windows(low.len()).map(|window| low_bits(low, window).len()).max().unwrap_or(0)
}

/// The remainder of a message that is all zeros but for one bit (from 1).
pub fn remainder_of_bit(n: usize, bit: usize) -> u32 {
    remainder_of_power(n - bit)
}

/// The fit of one window, if it has one.
pub fn fit_in_window(low: &[bool], window: usize, syndrome: u32) -> Option<Fit> {
    let places = low_bits(low, window);
    let columns: Vec<u32> = places.iter().map(|bit| remainder_of_bit(low.len(), *bit)).collect();
    let chosen = columns_that_add_up_to(&columns, syndrome)?;
    let taken = places.iter().zip(chosen).filter(|(_, chosen)| *chosen);
    Some(Fit { window, bits: taken.map(|(bit, _)| *bit).collect() })
}

/// The sensor's answer by the rows of document 01, in their order.
pub fn sense(message: &[u8], confidence: &[u8], word: u32, limit: u32) -> Verdict {
    let unchanged = |answer, left_out| {
        let (message, fits) = (message.to_vec(), Vec::new());
        Verdict { answer, message, fits, left_out }
    };
    if let Some(row) = sensor_rows(message, confidence, word, limit).first() {
        return unchanged(Answer::Refused(*row), Vec::new());
    }
    let received = bits_of_bytes(message);
    let low = bits_of_bytes(confidence);
    let syndrome = word_of_bits(&remainder(&received)) ^ word;
    if syndrome == 0 {
        return unchanged(Answer::Clean, Vec::new());
    }
    let dense = |window: &usize| low_bits(&low, *window).len() > limit as usize;
    if let Some(window) = windows(low.len()).find(dense) {
        return unchanged(Answer::Dense { window }, Vec::new());
    }
    let search = |window| fit_in_window(&low, window, syndrome);
    let agrees = |fit: &Fit| first_bit_agrees(&invert(&received, &fit.bits));
    let (fits, left_out): (Vec<Fit>, Vec<Fit>) =
        windows(low.len()).filter_map(search).partition(agrees);
    if fits.is_empty() {
        return unchanged(Answer::NoFit, left_out);
    }
    let message = invert(&received, &fits[0].bits);
    assert_eq!(remainder(&message), bits_of_word(word, DEGREE), "the fit makes it carry the word");
    Verdict { answer: corrected(&fits), message: bytes_of_bits(&message), fits, left_out }
}

/// The first bit of 56 is a 0, of 112 a 1.
pub fn first_bit_agrees(message: &[bool]) -> bool {
    message[0] == (message.len() == 112)
}

/// The answer of a correction by the first of these fits.
fn corrected(fits: &[Fit]) -> Answer {
    let same = fits.iter().all(|fit| fit.bits == fits[0].bits);
    let mark = if same { Mark::Sole } else { Mark::Several };
    Answer::Corrected { window: fits[0].window, ones: fits[0].bits.len(), mark }
}

/// The message with some of its bits (from 1) inverted.
pub fn invert(message: &[bool], bits: &[usize]) -> Bits {
    let mut changed = message.to_vec();
    for bit in bits {
        changed[bit - 1] ^= true;
    }
    changed
}

#[cfg(test)]
mod tests {
    use super::*;
    use crate::random::Random;
    use crate::rules::with_parity;

    fn bytes(text: &str) -> Vec<u8> {
        crate::text::hex_bytes(text.as_bytes(), 14).expect("digits")
    }

    /// A random field with the first bit that the length asks for.
    fn field(random: &mut Random, n: usize) -> Bits {
        (0..n - DEGREE).map(|k| if k == 0 { n == 112 } else { random.one_in(2) }).collect()
    }

    /// Document 01's values for the sensor, with the message after the call.
    #[test]
    fn the_bench_values_of_document_01() {
        let corrected = |window, mark| Answer::Corrected { window, ones: 1, mark };
        let word = 0x12_3456;
        let restored = "00008000EB2472";
        let low_17 = "00008000000000";
        let hit_17 = "00000000EB2472";
        let bit_32 = "00000001000000";
        let two_fits = "00000001FFF409";
        for (message, low, word, limit, answer, after) in [
            (hit_17, low_17, word, 24, corrected(0, Mark::Sole), restored),
            (hit_17, low_17, word, 0, Answer::Dense { window: 0 }, hit_17),
            (hit_17, "00004000000000", word, 24, Answer::NoFit, hit_17),
            (hit_17, "0000C000000000", word, 2, corrected(0, Mark::Sole), restored),
            (hit_17, "0000C000000000", word, 1, Answer::Dense { window: 0 }, hit_17),
            ("00008000EB2473", "00000000000001", word, 24, corrected(32, Mark::Sole), restored),
            (bit_32, two_fits, 0, 15, corrected(8, Mark::Several), "00000000000000"),
            (bit_32, two_fits, 0, 14, Answer::Dense { window: 29 }, bit_32),
            (restored, "FFFFFFFFFFFFFF", word, 0, Answer::Clean, restored),
        ] {
            let verdict = sense(&bytes(message), &bytes(low), word, limit);
            assert_eq!((verdict.answer, verdict.message), (answer, bytes(after)));
        }
    }

    /// Of several rows that apply the lowest is the answer.
    #[test]
    fn the_lowest_row_refuses() {
        for (message, confidence, word, limit, rows) in [
            (6, 6, 0, 24, vec![1]),
            (7, 14, 0, 24, vec![2]),
            (7, 7, 0x100_0000, 24, vec![3]),
            (14, 14, 0xFF_FFFF, 25, vec![4]),
            (0, 7, u32::MAX, u32::MAX, vec![1, 2, 3, 4]),
            (14, 7, 0x100_0000, 25, vec![2, 3, 4]),
        ] {
            let (message, confidence) = (vec![0; message], vec![0; confidence]);
            assert_eq!(sensor_rows(&message, &confidence, word, limit), rows);
            let verdict = sense(&message, &confidence, word, limit);
            assert_eq!(verdict.answer, Answer::Refused(rows[0]));
            assert_eq!(verdict.message, message);
        }
    }

    /// The fits by the letter: every nonzero pattern on low bits of a window is
    /// applied to the message, and the whole is divided.
    fn fits_by_dividing(message: &[bool], low: &[bool], word: u32) -> Vec<Fit> {
        let mut fits = Vec::new();
        for window in windows(low.len()) {
            let places = low_bits(low, window);
            for subset in 1u32..1 << places.len() {
                let taken = |k: &usize| subset >> k & 1 == 1;
                let bits: Vec<usize> = (0..places.len()).filter(taken).map(|k| places[k]).collect();
                let changed = invert(message, &bits);
                if word_of_bits(&remainder(&changed)) == word && first_bit_agrees(&changed) {
                    fits.push(Fit { window, bits });
                }
            }
        }
        fits
    }

    /// Replies with few low marks, most of them hit: the search and the letter
    /// of the rule find the same.
    #[test]
    fn the_search_finds_what_dividing_finds() {
        let mut random = Random::new(7);
        for turn in 0..60 {
            let n = if turn % 2 == 0 { 56 } else { 112 };
            let field = field(&mut random, n);
            let word = random.word();
            let window = random.below(n - DEGREE + 1);
            let ones = random.from_to(1, 5);
            let hit: Vec<usize> =
                random.choose(ones, DEGREE).iter().map(|k| window + 1 + k).collect();
            let message = invert(&with_parity(&field, word), &hit);
            let mut low = invert(&vec![false; n], &hit);
            low[random.below(n)] = true;
            low[random.below(n)] = true;
            let verdict =
                sense(&bytes_of_bits(&message), &bytes_of_bits(&low), word, HIGHEST_LIMIT);
            assert!(!verdict.fits.is_empty());
            assert_eq!(verdict.fits, fits_by_dividing(&message, &low, word));
        }
    }

    /// Demand 3 of a sealed reply hit on low-confidence bits of one window:
    /// never 'clean', never 'no fit', and as sent when 'sole'.
    #[test]
    fn a_sealed_reply_hit_on_low_bits() {
        let mut random = Random::new(9);
        for turn in 0..600 {
            let n = if turn % 2 == 0 { 56 } else { 112 };
            let field = field(&mut random, n);
            let word = random.word();
            let sent = with_parity(&field, word);
            let window = random.below(n - DEGREE + 1);
            let ones = random.from_to(1, DEGREE);
            let hit: Vec<usize> =
                random.choose(ones, DEGREE).iter().map(|k| window + 1 + k).collect();
            let broad = random.from_to(1, 20);
            let low: Bits = (1..=n).map(|bit| hit.contains(&bit) || random.one_in(broad)).collect();
            let limit = random.from_to(ones, DEGREE) as u32;
            let received = bytes_of_bits(&invert(&sent, &hit));
            let verdict = sense(&received, &bytes_of_bits(&low), word, limit);
            match verdict.answer {
                Answer::Dense { window } => {
                    assert!(low_bits(&low, window).len() > limit as usize);
                    assert_eq!(verdict.message, received);
                }
                Answer::Corrected { mark: Mark::Sole, ones: count, .. } => {
                    assert_eq!(verdict.message, bytes_of_bits(&sent));
                    assert_eq!(count, ones);
                }
                Answer::Corrected { mark: Mark::Several, .. } => (),
                other => panic!("{other:?}"),
            }
        }
    }
}
