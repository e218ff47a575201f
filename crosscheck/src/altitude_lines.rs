//! Lines `altitude` and `write` for `calls`: once every code and every altitude,
//! each written one read back; in every round all formats and lengths, the rows
//! of the table of refusals, wrong steps and altitudes, and malformed lines.

use crate::altitude::*;
use crate::blocks::Made;
use crate::calls::{MOST_FEET_DIGITS, MOST_STRING};
use crate::calls_lines::{name, string};
use crate::defects::*;
use crate::poly::{bits_of_word, Bits};
use crate::random::Random;

/// The groups of the malformed lines.
pub const READING_MALFORMED: &str = "altitude: malformed lines";
pub const WRITING_MALFORMED: &str = "write: malformed lines";

/// The group of the messages that were written, read again.
pub const READ_BACK: &str = "altitude: what was written, by format, altitude and step";

/// Steps that no code has and that have to be tried.
pub const OTHER_STEPS: [u32; 8] = [0, 1, 24, 26, 50, 99, 101, 9_999_999];

/// Altitudes out of the code with a step that have to be tried: one step beyond
/// each end, what only the other code has, and the ends of what a line can say.
pub const OUTSIDE: [(u32, i32); 14] = [
    (25, -1025),
    (25, -1100),
    (25, -1200),
    (25, 50_200),
    (25, 126_700),
    (25, -9_999_975),
    (25, -9_999_999),
    (25, 9_999_999),
    (100, -1300),
    (100, 126_800),
    (100, -9_999_900),
    (100, -9_999_999),
    (100, 9_999_900),
    (100, 9_999_999),
];

/// An altitude by format and step, as the kinds of two groups have it.
pub fn altitude_kind(format: u32, feet: i32, step: u32) -> String {
    format!("{format}: {feet} by {step}")
}

/// A message of the length that belongs to a format.
fn in_format(random: &mut Random, format: u32) -> Vec<u8> {
    let mut bytes = random.bytes(if format < 16 { 7 } else { 14 });
    bytes[0] = (format << 3) as u8 | bytes[0] & 7;
    bytes
}

/// A format, mostly one that has an altitude code.
fn any_format(random: &mut Random) -> u32 {
    if random.one_in(4) {
        random.below(32) as u32
    } else {
        *random.pick(&FORMATS)
    }
}

/// A number in as few digits as it needs, or with zeros before it, up to seven.
fn digits(random: &mut Random, number: u32) -> String {
    let shortest = number.to_string().len();
    let width = if random.one_in(2) { shortest } else { MOST_FEET_DIGITS };
    let width = random.from_to(shortest, width);
    format!("{number:0width$}")
}

/// Feet; nought has a sign every second time.
fn feet_text(random: &mut Random, feet: i32) -> Vec<u8> {
    let minus = feet < 0 || feet == 0 && random.one_in(2);
    let sign = if minus { "-" } else { "" };
    format!("{sign}{}", digits(random, feet.unsigned_abs())).into_bytes()
}

fn reading(message: &[u8]) -> Vec<Column> {
    vec![name("altitude"), string(message)]
}

fn writing(random: &mut Random, message: &[u8], feet: i32, step: u32) -> Vec<Column> {
    vec![
        name("write"),
        string(message),
        (Sort::Feet, feet_text(random, feet)),
        (Sort::Step, digits(random, step).into_bytes()),
    ]
}

fn made_reading(message: &[u8]) -> Made {
    Made::plain(join(&reading(message)))
}

fn made_writing(random: &mut Random, message: &[u8], feet: i32, step: u32) -> Made {
    Made::plain(join(&writing(random, message, feet, step)))
}

/// A code of each kind: none, metric, illegal, and legal ones by both steps.
fn any_code(random: &mut Random) -> Bits {
    let wanted = random.below(5);
    loop {
        let code = bits_of_word(random.below(1 << 13) as u32, 13);
        match (wanted, decode(&code)) {
            (0, _) => return vec![false; 13],
            (1, Altitude::Metric) | (2, Altitude::Illegal) => return code,
            (3, Altitude::Feet(feet)) if code == encode_if(feet, 25) => return code,
            (4, Altitude::Feet(feet)) if code == encode_if(feet, 100) => return code,
            _ => (),
        }
    }
}

/// The code of an altitude, nothing where the code with that step has it not.
fn encode_if(feet: i32, step: u32) -> Bits {
    if wrong_altitude(feet, step) {
        Vec::new()
    } else {
        encode(feet, step)
    }
}

/// An altitude written over an old code, and the message that this gives, read.
fn written_and_read(random: &mut Random, format: u32, feet: i32, step: u32) -> [Made; 2] {
    let old = any_code(random);
    let message = with_code(&in_format(random, format), &old);
    let after = write(&message, feet, step).expect("a format with an altitude code");
    assert_eq!(read(&after), Some(Altitude::Feet(feet)));
    let kind = altitude_kind(format, feet, step);
    let read_back = Made::aimed(join(&reading(&after)), READ_BACK, kind, Some("feet"));
    [made_writing(random, &message, feet, step), read_back]
}

/// Altitudes off the step, by every remainder with either sign.
fn off_the_step(random: &mut Random) -> Vec<Made> {
    let mut lines = Vec::new();
    for step in STEPS {
        let negative = altitudes(step).into_iter().filter(|feet| *feet < 0).collect::<Vec<_>>();
        let positive = altitudes(step).into_iter().filter(|feet| *feet > 0).collect::<Vec<_>>();
        for remainder in 1..step as i32 {
            for feet in [random.pick(&negative) + remainder, random.pick(&positive) - remainder] {
                let format = *random.pick(&FORMATS);
                let message = in_format(random, format);
                lines.push(made_writing(random, &message, feet, step));
            }
        }
    }
    lines
}

/// Every code read, and every altitude written and read back, in both formats;
/// and every remainder by a step.
pub fn all(random: &mut Random) -> Vec<Made> {
    let mut lines = off_the_step(random);
    for format in FORMATS {
        for code in 0..1 << 13 {
            let message = in_format(random, format);
            lines.push(made_reading(&with_code(&message, &bits_of_word(code, 13))));
        }
        for step in STEPS {
            for feet in altitudes(step) {
                lines.extend(written_and_read(random, format, feet, step));
            }
        }
    }
    random.shuffle(&mut lines);
    lines
}

/// A step and an altitude that its code has.
fn right_altitude(random: &mut Random) -> (i32, u32) {
    let step = *random.pick(&STEPS);
    (*random.pick(&altitudes(step)), step)
}

/// A step and an altitude that row 7 refuses.
fn wrong_pair(random: &mut Random) -> (i32, u32) {
    let (feet, step) = right_altitude(random);
    match random.below(4) {
        0 => (feet, *random.pick(&OTHER_STEPS)),
        1 => (feet, random.from_to(101, 9_999_999) as u32),
        2 => (feet + random.from_to(1, step as usize - 1) as i32, step),
        _ => {
            let (step, feet) = *random.pick(&OUTSIDE);
            (feet, step)
        }
    }
}

/// A message of another length than 7 and 14.
fn wrong_length(random: &mut Random) -> Vec<u8> {
    loop {
        let length = random.from_to(0, MOST_STRING);
        if length != 7 && length != 14 {
            return random.bytes(length);
        }
    }
}

/// A message whose first bit contradicts its length.
fn wrong_bit(random: &mut Random) -> Vec<u8> {
    let format = any_format(random);
    let mut bytes = in_format(random, format);
    bytes[0] ^= 0x80;
    bytes
}

/// Every set of rows that can refuse a call.
fn refused(random: &mut Random) -> Vec<Made> {
    let mut lines = Vec::new();
    for message in [wrong_length(random), wrong_bit(random)] {
        lines.push(made_reading(&message));
        for (feet, step) in [right_altitude(random), wrong_pair(random)] {
            lines.push(made_writing(random, &message, feet, step));
        }
    }
    for (step, feet) in OUTSIDE {
        let format = *random.pick(&FORMATS);
        let message = in_format(random, format);
        lines.push(made_writing(random, &message, feet, step));
    }
    for step in OTHER_STEPS {
        let format = *random.pick(&FORMATS);
        let message = in_format(random, format);
        let feet = 100 * random.from_to(0, 500) as i32 - 1000;
        lines.push(made_writing(random, &message, feet, step));
    }
    lines
}

/// Every format, with an altitude that its code has and with one that row 7
/// refuses.
fn all_formats(random: &mut Random) -> Vec<Made> {
    let mut lines = Vec::new();
    for format in 0..32 {
        let message = in_format(random, format);
        lines.push(made_reading(&message));
        for (feet, step) in [right_altitude(random), wrong_pair(random)] {
            lines.push(made_writing(random, &message, feet, step));
        }
    }
    lines
}

fn all_lengths(random: &mut Random) -> Vec<Made> {
    let mut lines = Vec::new();
    for length in 0..=MOST_STRING {
        let message = random.bytes(length);
        lines.push(made_reading(&message));
        let (feet, step) = right_altitude(random);
        lines.push(made_writing(random, &message, feet, step));
    }
    lines
}

/// Codes of all kinds, read.
fn all_answers(random: &mut Random) -> Vec<Made> {
    let mut lines = Vec::new();
    for format in FORMATS {
        for _ in 0..8 {
            let code = any_code(random);
            lines.push(made_reading(&with_code(&in_format(random, format), &code)));
        }
    }
    lines
}

/// Nought, with and without a sign, by both steps.
fn nought(random: &mut Random) -> Vec<Made> {
    let mut lines = Vec::new();
    for step in STEPS {
        for _ in 0..4 {
            let format = *random.pick(&FORMATS);
            let message = in_format(random, format);
            lines.push(made_writing(random, &message, 0, step));
        }
    }
    lines
}

fn well_formed_reading(random: &mut Random) -> Vec<Column> {
    let format = any_format(random);
    reading(&in_format(random, format))
}

fn well_formed_writing(random: &mut Random) -> Vec<Column> {
    let format = any_format(random);
    let message = in_format(random, format);
    let (feet, step) = right_altitude(random);
    writing(random, &message, feet, step)
}

/// A well-formed line of either call that is not refused, as columns.
pub fn well_formed(random: &mut Random) -> Vec<Column> {
    if random.one_in(2) {
        well_formed_reading(random)
    } else {
        well_formed_writing(random)
    }
}

/// Replaces the text of a column.
fn with(columns: &[Column], place: usize, text: &[u8]) -> Option<Vec<u8>> {
    let mut columns = columns.to_vec();
    columns[place].1 = text.to_vec();
    Some(join(&columns))
}

/// Replaces the text of a column by one of these.
fn with_one(columns: &[Column], random: &mut Random, place: usize, by: &[&str]) -> Option<Vec<u8>> {
    let text = random.pick(by);
    with(columns, place, text.as_bytes())
}

/// Defects of a message in the second column.
const OF_A_MESSAGE: [Defect; 4] = [
    ("message of 33 bytes", |columns, _| with(columns, 1, &[b'0'; 66])),
    ("message of 65 digits", |columns, _| with(columns, 1, &[b'0'; 65])),
    ("message of one digit", |columns, _| with(columns, 1, b"0")),
    ("message of two dashes", |columns, _| with(columns, 1, b"--")),
];

/// Defects of the name `altitude`.
const OF_READING: [Defect; 5] = [
    ("name in capitals", |columns, _| with(columns, 0, b"ALTITUDE")),
    ("name cut short", |columns, _| with(columns, 0, b"altitud")),
    ("name with a letter more", |columns, _| with(columns, 0, b"altitudes")),
    ("name of another call", |columns, random| {
        with_one(columns, random, 0, &["write", "reply", "sensor", "register", "read"])
    }),
    ("with a step", |columns, _| with(columns, 1, b"20000010000000 25")),
];

/// Defects of the name `write`, the altitude and the step.
const OF_WRITING: [Defect; 19] = [
    ("name in capitals", |columns, _| with(columns, 0, b"WRITE")),
    ("name cut short", |columns, _| with(columns, 0, b"writ")),
    ("name with a letter more", |columns, _| with(columns, 0, b"writes")),
    ("name of another call", |columns, random| {
        with_one(columns, random, 0, &["altitude", "reply", "sensor", "transponder", "bits"])
    }),
    ("altitude and step left out", |columns, _| Some(join(&columns[..2]))),
    ("step left out", |columns, _| Some(join(&columns[..3]))),
    ("altitude a dash", |columns, _| with(columns, 2, b"-")),
    ("altitude of two dashes", |columns, _| with(columns, 2, b"--")),
    ("altitude with two signs", |columns, random| {
        with_one(columns, random, 2, &["--1", "--100", "-+100", "+-100"])
    }),
    ("altitude with a plus", |columns, _| with(columns, 2, b"+100")),
    ("altitude with the sign behind it", |columns, _| with(columns, 2, b"100-")),
    ("altitude with a sign inside", |columns, _| with(columns, 2, b"1-00")),
    ("altitude with a space behind the sign", |columns, _| with(columns, 2, b"- 100")),
    ("altitude of 8 digits", |columns, random| {
        with_one(columns, random, 2, &["00000100", "-00000100", "10000000", "-10000000"])
    }),
    ("altitude with a hexadecimal digit", |columns, random| {
        with_one(columns, random, 2, &["A", "1F4", "-3E8"])
    }),
    ("step of 8 digits", |columns, random| {
        with_one(columns, random, 3, &["00000025", "00000100", "10000000"])
    }),
    ("step of 4294967321", |columns, _| with(columns, 3, b"4294967321")),
    ("step with a hexadecimal digit", |columns, random| {
        with_one(columns, random, 3, &["A", "1F", "64H"])
    }),
    ("step a dash", |columns, _| with(columns, 3, b"-")),
];

pub fn reading_defects() -> Vec<Defect> {
    [&OF_THE_LINE[..], &OF_A_NUMBER[..], &OF_A_MESSAGE[..], &OF_READING[..]].concat()
}

pub fn writing_defects() -> Vec<Defect> {
    [&OF_THE_LINE[..], &OF_A_NUMBER[..], &OF_A_MESSAGE[..], &OF_WRITING[..]].concat()
}

/// Lines of all recipes but those that are made once.
pub fn round(random: &mut Random) -> Vec<Made> {
    let mut lines = spoiled(random, READING_MALFORMED, reading_defects(), well_formed_reading);
    lines.extend(spoiled(random, WRITING_MALFORMED, writing_defects(), well_formed_writing));
    lines.extend(all_answers(random));
    lines.extend(all_formats(random));
    lines.extend(all_lengths(random));
    lines.extend(refused(random));
    lines.extend(nought(random));
    lines
}

#[cfg(test)]
mod tests {
    use super::*;
    use crate::calls::{judge, read, rows, Reply};

    #[test]
    fn every_defect_spoils_every_line() {
        type Maker = fn(&mut Random) -> Vec<Column>;
        let mut random = Random::new(32);
        let both: [(Vec<Defect>, Maker); 2] =
            [(reading_defects(), well_formed_reading), (writing_defects(), well_formed_writing)];
        for (defects, well_formed) in both {
            for (name, spoil) in defects {
                for _ in 0..50 {
                    let columns = well_formed(&mut random);
                    let line = spoil(&columns, &mut random).expect("such a column");
                    assert_eq!(read(&line), None, "{name}: {}", line.escape_ascii());
                }
            }
        }
    }

    #[test]
    fn well_formed_lines_are_answered() {
        let mut random = Random::new(33);
        for _ in 0..500 {
            let judged = judge(&join(&well_formed(&mut random)));
            let (_, reply) = judged.expect("well formed");
            let said = matches!(reply, Reply::Said(_) | Reply::Written(_) | Reply::NoSuchField);
            assert!(said, "{reply:?}");
        }
    }

    /// What stands outside, and the other steps, are refused by row 7 alone.
    #[test]
    fn refused_by_row_7() {
        let mut random = Random::new(34);
        for _ in 0..500 {
            let (feet, step) = wrong_pair(&mut random);
            let message = in_format(&mut random, 20);
            let line = made_writing(&mut random, &message, feet, step);
            let call = read(&line.text).expect("well formed");
            assert_eq!(rows(&call), [7]);
        }
        assert!(OUTSIDE.iter().all(|(step, feet)| wrong_altitude(*feet, *step)));
    }
}
