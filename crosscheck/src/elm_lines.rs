//! Lines for `elm`: whole messages in every order, every RC and NC in every state of
//! the receiver, long random exchanges, refused calls, bursts, and malformed lines.

use crate::blocks::{Made, MALFORMED};
use crate::calls::MOST_STRING;
use crate::calls_lines::{assigned, in_format, interrogation, string, word, word_above};
use crate::defects::*;
use crate::elm::PLACES;
use crate::poly::{bits_of_bytes, bytes_of_bits, DEGREE};
use crate::random::Random;
use crate::rules::{interrogation_seal, HIGHEST};
use crate::sender_lines;
use crate::sensor::{invert, windows};

/// The group of segments that a burst has hit on their way to an opened receiver.
pub const HIT: &str = "a segment hit by a burst, with segments held, by window";

/// An interrogation of format 24 with this RC, this NC and these bytes.
fn segment(rc: u32, nc: u32, bytes: &[u8], own: u32) -> Vec<u8> {
    let mut message = vec![(0xC0 | rc << 4 | nc) as u8];
    message.extend(bytes);
    message.extend([0; 3]);
    interrogation_seal(&message, own).expect("the first bit is right")
}

fn columns_of(random: &mut Random, own: u32, message: &[u8]) -> Vec<Column> {
    vec![(Sort::Name, b"receive".to_vec()), word(random, own), string(message)]
}

fn received(random: &mut Random, own: u32, message: &[u8]) -> Made {
    Made::plain(join(&columns_of(random, own, message)))
}

/// A segment of random bytes on its way.
fn sent(random: &mut Random, rc: u32, nc: u32, own: u32) -> Made {
    let bytes = random.bytes(10);
    let message = segment(rc, nc, &bytes, own);
    received(random, own, &message)
}

fn fresh() -> Made {
    Made::plain(b"fresh".to_vec())
}

/// A message of this many segments, of which the one with a number is heard last; the
/// others come in any order, with repetitions.
fn whole(random: &mut Random, last: u32, missing: u32) -> Vec<Made> {
    let own = assigned(random);
    let mut numbers: Vec<u32> = (0..last).filter(|number| *number != missing).collect();
    for _ in 0..random.below(4) {
        numbers.extend(numbers.clone().get(random.below(numbers.len().max(1))));
    }
    random.shuffle(&mut numbers);
    let mut lines = vec![sent(random, 0, last, own)];
    for number in numbers {
        let rc = random.from_to(1, 2) as u32;
        lines.push(sent(random, rc, number, own));
    }
    lines.push(sent(random, 1, missing, own));
    lines.push(sent(random, 2, last, own));
    lines
}

/// Every RC and NC to a receiver with a message of this last number, or with none.
fn every_control(random: &mut Random, last: Option<u32>) -> Vec<Made> {
    let own = assigned(random);
    let mut lines = Vec::new();
    for rc in 0..4 {
        for nc in 0..PLACES {
            lines.push(match last {
                Some(last) => sent(random, 0, last, own),
                None => fresh(),
            });
            lines.push(sent(random, rc, nc, own));
        }
    }
    lines
}

/// Something that changes nothing: for another transponder, for all, refused, or in
/// another format.
fn idle(random: &mut Random, own: u32) -> Made {
    let bytes = random.bytes(10);
    let (rc, nc) = (random.below(4) as u32, random.below(16) as u32);
    match random.below(9) {
        0 => {
            let message = segment(rc, nc, &bytes, assigned(random));
            received(random, own, &message)
        }
        1 => {
            let message = segment(rc, nc, &bytes, HIGHEST);
            received(random, own, &message)
        }
        2 => {
            let format = *random.pick(&[11, 20, 21]);
            let message = in_format(random, format, HIGHEST);
            received(random, own, &message)
        }
        3 => {
            let length = random.from_to(0, MOST_STRING);
            let message = random.bytes(length);
            received(random, own, &message)
        }
        4 => {
            let message = segment(rc, nc, &bytes, own);
            let above = word_above(random);
            let own = *random.pick(&[0, HIGHEST, above]);
            received(random, own, &message)
        }
        5 => {
            let mut message = segment(rc, nc, &bytes, own);
            message[0] ^= 0x80;
            received(random, own, &message)
        }
        6 => {
            let format = random.below(24) as u8;
            let message = in_format(random, format, own);
            received(random, own, &message)
        }
        7 => Made::plain(mutated(b"receive 4840D6 00000000000000", random)),
        _ => hit(random, own, 0),
    }
}

/// A segment for the own address, hit by a burst in a window.
fn hit(random: &mut Random, own: u32, window: usize) -> Made {
    let bytes = random.bytes(10);
    let message = segment(random.below(4) as u32, random.below(16) as u32, &bytes, own);
    let ones = random.from_to(1, DEGREE);
    let burst: Vec<usize> = random.choose(ones, DEGREE).iter().map(|k| window + 1 + k).collect();
    let message = bytes_of_bits(&invert(&bits_of_bytes(&message), &burst));
    Made::aimed(join(&columns_of(random, own, &message)), HIT, window, None)
}

/// A message that is opened, and segments of it hit in every window.
fn all_hit(random: &mut Random) -> Vec<Made> {
    let own = assigned(random);
    let mut lines = Vec::new();
    for window in windows(112) {
        lines.push(sent(random, 0, 9, own));
        lines.push(hit(random, own, window));
    }
    lines
}

/// Interrogations for the own address in every format.
fn formats(random: &mut Random) -> Vec<Made> {
    let own = assigned(random);
    let mut lines = vec![sent(random, 0, 15, own)];
    for format in 0..32 {
        let message = in_format(random, format, own);
        lines.push(received(random, own, &message));
    }
    lines
}

/// A long exchange with one own address, in which anything may come.
fn exchange(random: &mut Random, count: usize) -> Vec<Made> {
    let own = assigned(random);
    let mut lines = Vec::new();
    let mut last = random.from_to(1, 15) as u32;
    for _ in 0..count {
        let any = random.below(16) as u32;
        let line = match random.below(20) {
            0 => {
                last = any;
                sent(random, 0, last, own)
            }
            1 if random.one_in(8) => fresh(),
            2..=4 => idle(random, own),
            5 => sent(random, 3, any, own),
            6 => sent(random, 1, any, own),
            _ => {
                let rc = random.from_to(1, 2) as u32;
                sent(random, rc, any % (last + 1), own)
            }
        };
        lines.push(line);
    }
    lines
}

/// Messages of every length that a line can have.
fn all_lengths(random: &mut Random) -> Vec<Made> {
    let own = assigned(random);
    (0..=MOST_STRING)
        .map(|length| {
            let message = random.bytes(length);
            received(random, own, &message)
        })
        .collect()
}

/// A well-formed line of any kind.
pub fn any_line(random: &mut Random) -> Vec<u8> {
    let own = 0x48_40D6;
    match random.below(10) {
        0 => b"fresh".to_vec(),
        9 => sender_lines::any_line(random),
        1 => {
            let message = interrogation(random, 14, own);
            received(random, own, &message).text
        }
        2 => {
            let last = random.from_to(1, 15) as u32;
            sent(random, 0, last, own).text
        }
        _ => {
            let number = random.below(16) as u32;
            sent(random, 1, number, own).text
        }
    }
}

fn columns(random: &mut Random) -> Vec<Column> {
    let own = assigned(random);
    let message = interrogation(random, 14, own);
    columns_of(random, own, &message)
}

pub fn defects() -> Vec<Defect> {
    [&OF_THE_LINE[..], &OF_A_NUMBER[..]].concat()
}

/// Forms that no line has: each is one step from one that a line has.
pub const WRONG_FORMS: [&str; 17] = [
    "Fresh",
    "fres",
    "freshs",
    "fresh ",
    " fresh",
    "fresh 0",
    "fresh 0 -",
    "fresh\r",
    "receive",
    "receive ",
    "receive 0",
    "receive 0 ",
    "receive - -",
    "receive 0 --",
    "receive 000000001 -",
    "receives 0 -",
    "receiv 0 -",
];

fn malformed(random: &mut Random) -> Vec<Made> {
    let mut lines = spoiled(random, MALFORMED, defects(), columns);
    for form in WRONG_FORMS {
        let text = form.as_bytes().to_vec();
        lines.push(Made::aimed(text, MALFORMED, form.escape_debug(), Some("malformed")));
    }
    for digits in [65, 66] {
        let text = [&b"receive 0 "[..], &vec![b'0'; digits]].concat();
        lines.push(Made::aimed(text, MALFORMED, format!("{digits} digits"), Some("malformed")));
    }
    lines
}

/// One round of lines.
pub fn round(random: &mut Random) -> Vec<Made> {
    let mut lines = Vec::new();
    for last in 1..PLACES {
        for missing in 0..last {
            lines.extend(whole(random, last, missing));
        }
    }
    lines.extend(every_control(random, None));
    for last in 1..PLACES {
        lines.extend(every_control(random, Some(last)));
    }
    lines.extend(exchange(random, 1500));
    lines.extend(all_hit(random));
    lines.extend(formats(random));
    lines.extend(all_lengths(random));
    lines.extend(malformed(random));
    lines.extend(sender_lines::round(random));
    for _ in 0..40 {
        lines.push(Made::plain(any_line(random)));
    }
    lines
}

#[cfg(test)]
mod tests {
    use super::*;
    use crate::elm::read;

    #[test]
    fn every_defect_spoils_every_line() {
        let mut random = Random::new(31);
        for _ in 0..200 {
            for (name, spoil) in defects() {
                let columns = columns(&mut random);
                if let Some(line) = spoil(&columns, &mut random) {
                    assert_eq!(read(&line), None, "{name}: {}", line.escape_ascii());
                }
            }
        }
    }
}
