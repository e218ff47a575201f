//! Lines `sensor` for `calls`: each answer at both lengths, every set of rows of
//! the table of refusals, every length of message and confidence, limits of
//! every size, and malformed lines.

use crate::blocks::Made;
use crate::calls::{MOST_LIMIT_DIGITS, MOST_STRING};
use crate::calls_lines::{name, string, word, word_above};
use crate::defects::*;
use crate::poly::*;
use crate::random::Random;
use crate::rules::{with_parity, HIGHEST};
use crate::sensor::HIGHEST_LIMIT;
use crate::{sift, sift_lines};

/// The group of the malformed lines.
pub const MALFORMED: &str = "sensor: malformed lines";

/// Limits above 24 that have to be tried: next to a number of digits or of bits,
/// and those whose low 8, 16, 24, 28 or 29 bits are 24 at the most.
pub const LIMITS: [u32; 22] = [
    25,
    26,
    32,
    48,
    99,
    100,
    255,
    256,
    280,
    999,
    1000,
    1024,
    65_535,
    65_536,
    65_560,
    16_777_216,
    16_777_240,
    99_999_999,
    100_000_000,
    268_435_480,
    536_870_936,
    999_999_999,
];

/// A limit in as few digits as it needs, or with zeros before it, up to nine.
fn limit_text(random: &mut Random, limit: u32) -> Vec<u8> {
    let shortest = limit.to_string().len();
    let width = if random.one_in(2) { shortest } else { MOST_LIMIT_DIGITS };
    let width = random.from_to(shortest, width);
    format!("{limit:0width$}").into_bytes()
}

/// The columns of a call of the sensor.
fn columns(random: &mut Random, request: &sift::Request) -> [Column; 5] {
    [
        name("sensor"),
        string(&request.message),
        string(&request.confidence),
        word(random, request.word),
        (Sort::Limit, limit_text(random, request.limit)),
    ]
}

fn made(random: &mut Random, request: &sift::Request) -> Made {
    Made::plain(join(&columns(random, request)))
}

/// A line that was made for `sift`, as a call.
fn as_call(random: &mut Random, line: &Made) -> Made {
    let request = sift::read(&line.text).expect("a well-formed line");
    made(random, &request)
}

/// Replies that are not refused.
fn answered(random: &mut Random) -> Vec<Made> {
    let lines = sift_lines::LENGTHS.map(|n| sift_lines::one_of_each(random, n));
    lines.iter().flatten().map(|line| as_call(random, line)).collect()
}

/// A length from 0 to 32 that is none of these.
fn length_but(random: &mut Random, but: &[usize]) -> usize {
    loop {
        let length = random.from_to(0, MOST_STRING);
        if !but.contains(&length) {
            return length;
        }
    }
}

/// A limit above the highest.
fn limit_above(random: &mut Random) -> u32 {
    match random.below(3) {
        0 => *random.pick(&LIMITS),
        1 => random.from_to(25, 99) as u32,
        _ => random.from_to(25, 999_999_999) as u32,
    }
}

/// A message of so many bytes; at times it carries the word, or what its low 24
/// bits are.
fn message(random: &mut Random, length: usize, word: u32) -> Vec<u8> {
    if length < 3 || random.one_in(2) {
        return random.bytes(length);
    }
    let field = bits_of_bytes(&random.bytes(length - 3));
    bytes_of_bits(&with_parity(&field, word & HIGHEST))
}

/// A call of these lengths that rows 3 and 4 do not refuse.
fn of_lengths(random: &mut Random, message_bytes: usize, confidence_bytes: usize) -> Made {
    let word = random.word();
    let limit = random.below(25) as u32;
    let message = message(random, message_bytes, word);
    let confidence = random.bytes(confidence_bytes);
    made(random, &sift::Request { message, confidence, word, limit })
}

/// Every length of the message and of the confidence, with the same length of
/// the other and with another; and every other length beside 7 and 14.
fn all_lengths(random: &mut Random) -> Vec<Made> {
    let mut lines = Vec::new();
    for length in 0..=MOST_STRING {
        let other = length_but(random, &[length]);
        for (m, c) in [(length, length), (length, other), (other, length)] {
            lines.push(of_lengths(random, m, c));
        }
        for right in [7, 14] {
            lines.push(of_lengths(random, right, length));
        }
    }
    lines
}

/// A call to which exactly these of the rows 1 to 4 apply.
fn refused_by(random: &mut Random, rows: [bool; 4]) -> Made {
    let [wrong_length, other_length, word_too_high, limit_too_high] = rows;
    let right = *random.pick(&[7, 14]);
    let bytes = if wrong_length { length_but(random, &[7, 14]) } else { right };
    let marks = if other_length { length_but(random, &[bytes]) } else { bytes };
    let word = if word_too_high { word_above(random) } else { random.word() };
    let limit = if limit_too_high { limit_above(random) } else { random.below(25) as u32 };
    let message = message(random, bytes, word);
    let confidence = random.bytes(marks);
    made(random, &sift::Request { message, confidence, word, limit })
}

/// Every set of rows that can refuse a call.
fn refused(random: &mut Random) -> Vec<Made> {
    let rows = |set: u8| [1, 2, 4, 8].map(|row| set & row != 0);
    (1..16).map(|set| refused_by(random, rows(set))).collect()
}

/// Limits above the highest in calls that no other row refuses.
fn limits(random: &mut Random) -> Vec<Made> {
    let mut lines = Vec::new();
    for limit in LIMITS {
        let length = *random.pick(&[7, 14]);
        let word = random.word();
        let message = message(random, length, word);
        let confidence = random.bytes(length);
        lines.push(made(random, &sift::Request { message, confidence, word, limit }));
    }
    lines
}

/// A well-formed line that the sensor does not refuse, as columns.
pub fn well_formed(random: &mut Random) -> [Column; 5] {
    let request = sift::read(&sift_lines::any_line(random)).expect("a well-formed line");
    assert!(request.limit <= HIGHEST_LIMIT);
    columns(random, &request)
}

/// Replaces the text of a column.
fn with(columns: &[Column], place: usize, text: &[u8]) -> Option<Vec<u8>> {
    let mut columns = columns.to_vec();
    columns[place].1 = text.to_vec();
    Some(join(&columns))
}

/// Defects of the sensor's columns.
const OF_THE_SENSOR: [Defect; 25] = [
    ("name in capitals", |columns, _| with(columns, 0, b"SENSOR")),
    ("name cut short", |columns, _| with(columns, 0, b"senso")),
    ("name with a letter more", |columns, _| with(columns, 0, b"sensors")),
    ("name of another call", |columns, random| {
        let other = *random.pick(&[&b"reply"[..], b"transponder", b"bits", b"register", b"sift"]);
        with(columns, 0, other)
    }),
    ("name alone", |_, _| Some(b"sensor".to_vec())),
    ("name left out", |columns, _| Some(join(&columns[1..]))),
    ("the message alone", |columns, _| Some(join(&columns[..2]))),
    ("word and limit left out", |columns, _| Some(join(&columns[..3]))),
    ("limit left out", |columns, _| Some(join(&columns[..4]))),
    ("message of 33 bytes", |columns, _| with(columns, 1, &[b'0'; 66])),
    ("confidence of 33 bytes", |columns, _| with(columns, 2, &[b'0'; 66])),
    ("message of 65 digits", |columns, _| with(columns, 1, &[b'0'; 65])),
    ("confidence of 65 digits", |columns, _| with(columns, 2, &[b'0'; 65])),
    ("message of one digit", |columns, _| with(columns, 1, b"0")),
    ("confidence of one digit", |columns, _| with(columns, 2, b"8")),
    ("message of two dashes", |columns, _| with(columns, 1, b"--")),
    ("confidence of two dashes", |columns, _| with(columns, 2, b"--")),
    ("word of 9 digits", |columns, _| with(columns, 3, b"000000001")),
    ("word a dash", |columns, _| with(columns, 3, b"-")),
    ("limit of 10 digits", |columns, _| with(columns, 4, b"0000000024")),
    ("limit of 20 digits", |columns, _| with(columns, 4, b"00000000000000000024")),
    ("limit 4294967296", |columns, _| with(columns, 4, b"4294967296")),
    ("limit with a hexadecimal digit", |columns, random| {
        let text = *random.pick(&[&b"A"[..], b"1F", b"C"]);
        with(columns, 4, text)
    }),
    ("limit a dash", |columns, _| with(columns, 4, b"-")),
    ("limit not a whole number", |columns, _| with(columns, 4, b"1.")),
];

/// All defects that lines of the sensor get.
pub fn defects() -> Vec<Defect> {
    [&OF_THE_LINE[..], &OF_A_NUMBER[..], &OF_THE_SENSOR[..]].concat()
}

/// Lines of all recipes.
pub fn round(random: &mut Random) -> Vec<Made> {
    let mut lines = spoiled(random, MALFORMED, defects(), well_formed);
    for _ in 0..4 {
        lines.extend(answered(random));
    }
    lines.extend(all_lengths(random));
    lines.extend(refused(random));
    lines.extend(limits(random));
    lines
}

#[cfg(test)]
mod tests {
    use super::*;
    use crate::calls::{judge, read, rows, Reply};

    #[test]
    fn exactly_the_rows_asked_for() {
        let mut random = Random::new(16);
        for _ in 0..200 {
            for (set, line) in (1..16u8).zip(refused(&mut random)) {
                let wanted: Vec<u8> = (1..=4).filter(|row| set >> (row - 1) & 1 == 1).collect();
                let call = read(&line.text).expect("a well-formed line");
                assert_eq!(rows(&call), wanted);
            }
        }
    }

    #[test]
    fn well_formed_lines_are_answered() {
        let mut random = Random::new(17);
        for _ in 0..50 {
            let line = join(&well_formed(&mut random));
            assert!(matches!(judge(&line), Some((_, Reply::Sensed(..)))));
            for line in answered(&mut random) {
                assert!(matches!(judge(&line.text), Some((_, Reply::Sensed(..)))));
            }
        }
    }

    #[test]
    fn every_defect_spoils_every_line() {
        let mut random = Random::new(18);
        for _ in 0..50 {
            for (name, spoil) in defects() {
                let columns = well_formed(&mut random);
                let line = spoil(&columns, &mut random).expect("the sensor has such a column");
                assert_eq!(read(&line), None, "{name}: {}", line.escape_ascii());
            }
        }
    }
}
