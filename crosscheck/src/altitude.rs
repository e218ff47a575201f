//! Altitude codes (document 02, Point 1): bits 20 to 32 of the replies of
//! formats 4 and 20, read and written.
//!
//! The bits go by their names. A reflected Gray code is the list of its patterns
//! in the order of counting, made by reflection; a number is read from a pattern
//! by counting through that list.

use crate::poly::{bits_of_bytes, bytes_of_bits, Bits};
use crate::rules::*;
use std::sync::OnceLock;

/// The bits 20 to 32 of a reply, in the order of sending.
const NAMES: [&str; 13] =
    ["C1", "A1", "C2", "A2", "C4", "A4", "M", "B1", "Q", "B2", "D2", "B4", "D4"];

/// The places of these bits in a message, counted from 0.
const PLACES: std::ops::Range<usize> = 19..32;

/// The names of the bits that count 500 feet in a Gray code, the top one first.
const FIVE_HUNDREDS: [&str; 8] = ["D2", "D4", "A1", "A2", "A4", "B1", "B2", "B4"];

/// The names of the bits that count 100 feet.
const HUNDREDS: [&str; 3] = ["C1", "C2", "C4"];

/// C1 C2 C4 for -200, -100, 0, 100 and 200 feet; for an odd number of 500 feet
/// the list runs the other way.
const C_PATTERNS: [[bool; 3]; 5] = [
    [false, false, true],
    [false, true, true],
    [false, true, false],
    [true, true, false],
    [true, false, false],
];

/// The reply formats that have an altitude code.
pub const FORMATS: [u32; 2] = [4, 20];

/// The steps of the two codes, in feet.
pub const STEPS: [u32; 2] = [25, 100];

/// What a code says.
#[derive(Debug, Clone, Copy, PartialEq, Eq)]
pub enum Altitude {
    Feet(i32),
    NoAltitude,
    Metric,
    Illegal,
}

/// The first and the last altitude of the code with a step; none for a step
/// that no code has.
pub fn range(step: u32) -> Option<(i32, i32)> {
    match step {
        25 => Some((-1000, 25 * 2047 - 1000)),
        100 => Some((-1200, 126_700)),
        _ => None,
    }
}

/// The altitudes of the code with a step, in rising order.
pub fn altitudes(step: u32) -> Vec<i32> {
    let (first, last) = range(step).expect("a step that a code has");
    (first..=last).step_by(step as usize).collect()
}

/// Row 7.
pub fn wrong_altitude(feet: i32, step: u32) -> bool {
    match range(step) {
        None => true,
        Some((first, last)) => feet % step as i32 != 0 || feet < first || feet > last,
    }
}

pub fn reading_rows(message: &[u8]) -> Vec<u8> {
    rows_that_apply(&[(1, wrong_message_length(message)), (5, wrong_first_bit(message))])
}

pub fn writing_rows(message: &[u8], feet: i32, step: u32) -> Vec<u8> {
    rows_that_apply(&[
        (1, wrong_message_length(message)),
        (5, wrong_first_bit(message)),
        (7, wrong_altitude(feet, step)),
    ])
}

/// All patterns of a reflected Gray code in the order of counting: those of one
/// bit less with 0 before them, then the same list backwards with 1 before them.
fn reflected(width: usize) -> Vec<Bits> {
    if width == 0 {
        return vec![Vec::new()];
    }
    let narrower = reflected(width - 1);
    let with = |bit: bool, pattern: &Bits| [&[bit], &pattern[..]].concat();
    let forwards = narrower.iter().map(|pattern| with(false, pattern));
    let backwards = narrower.iter().rev().map(|pattern| with(true, pattern));
    forwards.chain(backwards).collect()
}

/// The Gray code of the numbers of 500 feet.
fn gray() -> &'static Vec<Bits> {
    static GRAY: OnceLock<Vec<Bits>> = OnceLock::new();
    GRAY.get_or_init(|| reflected(FIVE_HUNDREDS.len()))
}

/// The patterns of C1 C2 C4 beside the number g of 500 feet, from -200 feet on.
fn c_patterns(g: usize) -> Vec<[bool; 3]> {
    let mut patterns = C_PATTERNS.to_vec();
    if g % 2 == 1 {
        patterns.reverse();
    }
    patterns
}

/// The bits of a code that have these names, in this order.
fn named(code: &[bool], names: &[&str]) -> Bits {
    let bit = |name: &&str| code[NAMES.iter().position(|known| known == name).expect("a name")];
    names.iter().map(bit).collect()
}

/// The code with these bits under these names, and 0 elsewhere.
fn code_of(bits: &[(&str, bool)]) -> Bits {
    let bit = |name: &&str| bits.iter().any(|(known, bit)| known == name && *bit);
    NAMES.iter().map(bit).collect()
}

/// The names of the eleven bits of N.
fn of_n() -> Vec<&'static str> {
    NAMES.into_iter().filter(|name| *name != "M" && *name != "Q").collect()
}

/// What thirteen bits say.
pub fn decode(code: &[bool]) -> Altitude {
    if code.iter().all(|bit| !bit) {
        Altitude::NoAltitude
    } else if named(code, &["M"])[0] {
        Altitude::Metric
    } else if named(code, &["Q"])[0] {
        let n = named(code, &of_n()).iter().fold(0, |n, bit| 2 * n + i32::from(*bit));
        Altitude::Feet(25 * n - 1000)
    } else {
        decode_hundreds(code).map_or(Altitude::Illegal, Altitude::Feet)
    }
}

/// The 100-foot code; none for an illegal pattern.
fn decode_hundreds(code: &[bool]) -> Option<i32> {
    let pattern = named(code, &FIVE_HUNDREDS);
    let g = gray().iter().position(|known| *known == pattern)?;
    let hundreds = named(code, &HUNDREDS);
    let k = c_patterns(g).iter().position(|known| hundreds == known)?;
    Some(500 * g as i32 - 1000 + 100 * k as i32 - 200)
}

/// The code of an altitude that row 7 does not refuse.
pub fn encode(feet: i32, step: u32) -> Bits {
    assert!(!wrong_altitude(feet, step));
    if step == 25 {
        let n = (feet + 1000) / 25;
        let names = of_n();
        let mut bits: Vec<(&str, bool)> = vec![("Q", true)];
        bits.extend(names.iter().rev().enumerate().map(|(k, name)| (*name, n >> k & 1 == 1)));
        code_of(&bits)
    } else {
        let at = altitudes(100).iter().position(|known| *known == feet).expect("an altitude");
        hundreds()[at].clone()
    }
}

/// The 100-foot codes from -1200 feet on: g counts up, and beside each g the
/// five patterns.
fn hundreds() -> &'static Vec<Bits> {
    static CODES: OnceLock<Vec<Bits>> = OnceLock::new();
    CODES.get_or_init(|| {
        let mut codes = Vec::new();
        for (g, pattern) in gray().iter().enumerate() {
            for hundreds in c_patterns(g) {
                codes.push(of_pulses(&[pattern, &hundreds[..]].concat()));
            }
        }
        codes
    })
}

/// The code whose bits D2 D4 A1 A2 A4 B1 B2 B4 C1 C2 C4 are these.
pub fn of_pulses(bits: &[bool]) -> Bits {
    let names = FIVE_HUNDREDS.into_iter().chain(HUNDREDS);
    code_of(&names.zip(bits.iter().copied()).collect::<Vec<_>>())
}

/// The thirteen bits of a message that has them.
pub fn code(message: &[u8]) -> Bits {
    bits_of_bytes(message)[PLACES].to_vec()
}

/// The message with these thirteen bits in place of its own.
pub fn with_code(message: &[u8], code: &[bool]) -> Vec<u8> {
    let mut bits = bits_of_bytes(message);
    bits.splice(PLACES, code.iter().copied());
    bytes_of_bits(&bits)
}

fn has_code(message: &[u8]) -> bool {
    FORMATS.contains(&format_number(message))
}

/// The altitude in a message that no row refuses; none if its format has no
/// such field.
pub fn read(message: &[u8]) -> Option<Altitude> {
    has_code(message).then(|| decode(&code(message)))
}

/// The message with the altitude written, in a call that no row refuses; none if
/// its format has no such field.
pub fn write(message: &[u8], feet: i32, step: u32) -> Option<Vec<u8>> {
    has_code(message).then(|| with_code(message, &encode(feet, step)))
}

#[cfg(test)]
mod tests {
    use super::*;
    use crate::random::Random;
    use std::collections::HashSet;

    /// Every pattern of thirteen bits.
    fn all_codes() -> Vec<Bits> {
        (0..1 << 13).map(|n: u32| (0..13).rev().map(|k| n >> k & 1 == 1).collect()).collect()
    }

    fn bits(text: &str) -> Bits {
        text.bytes().map(|digit| digit == b'1').collect()
    }

    #[test]
    fn three_bits_reflected() {
        let patterns = ["000", "001", "011", "010", "110", "111", "101", "100"];
        assert_eq!(reflected(3), patterns.map(bits));
    }

    /// Neighbours differ in one bit, the last and the first too, and no pattern
    /// stands twice.
    #[test]
    fn a_gray_code() {
        let patterns = gray();
        assert_eq!(patterns.len(), 256);
        assert_eq!(patterns.iter().collect::<HashSet<_>>().len(), 256);
        for (k, pattern) in patterns.iter().enumerate() {
            let next = &patterns[(k + 1) % 256];
            assert_eq!(pattern.iter().zip(next).filter(|(a, b)| a != b).count(), 1);
        }
    }

    #[test]
    fn counts_of_all_codes() {
        let count =
            |is: fn(&Altitude) -> bool| all_codes().iter().filter(|code| is(&decode(code))).count();
        assert_eq!(count(|said| matches!(said, Altitude::Feet(_))), 2048 + 1280);
        assert_eq!(count(|said| *said == Altitude::NoAltitude), 1);
        assert_eq!(count(|said| *said == Altitude::Metric), 4096);
        assert_eq!(count(|said| *said == Altitude::Illegal), 767);
    }

    /// Each code's altitude is written as that code, by the step that it has.
    #[test]
    fn written_as_it_was_read() {
        for code in all_codes() {
            if let Altitude::Feet(feet) = decode(&code) {
                let step = if named(&code, &["Q"])[0] { 25 } else { 100 };
                assert_eq!(encode(feet, step), code);
            }
        }
    }

    #[test]
    fn read_as_it_was_written() {
        assert_eq!(STEPS.map(|step| altitudes(step).len()), [2048, 1280]);
        for step in STEPS {
            for feet in altitudes(step) {
                let code = encode(feet, step);
                assert_eq!(decode(&code), Altitude::Feet(feet));
                assert_eq!(named(&code, &["M", "Q"]), [false, step == 25]);
            }
        }
    }

    /// One step of 100 feet changes one bit.
    #[test]
    fn neighbours_of_100_feet() {
        for pair in hundreds().windows(2) {
            assert_eq!(pair[0].iter().zip(&pair[1]).filter(|(a, b)| a != b).count(), 1);
        }
    }

    /// The ends of both codes, bit by bit.
    #[test]
    fn the_ends() {
        //                            CACACAMBQBDBD
        assert_eq!(encode(-1000, 25), bits("0000000010000"));
        assert_eq!(encode(50_175, 25), bits("1111110111111"));
        assert_eq!(encode(-975, 25), bits("0000000010001"));
        assert_eq!(encode(-1200, 100), bits("0000100000000"));
        assert_eq!(encode(126_700, 100), bits("0000100000100"));
    }

    #[test]
    fn only_these_bits_change() {
        let mut random = Random::new(31);
        for turn in 0..400 {
            let mut message = random.bytes(if turn % 2 == 0 { 7 } else { 14 });
            message[0] = message[0] & 7 | if turn % 2 == 0 { 4 << 3 } else { 20 << 3 };
            let step = *random.pick(&STEPS);
            let feet = *random.pick(&altitudes(step));
            let written = write(&message, feet, step).expect("formats 4 and 20");
            assert_eq!(read(&written), Some(Altitude::Feet(feet)));
            let (before, after) = (bits_of_bytes(&message), bits_of_bytes(&written));
            assert_eq!(before[..19], after[..19]);
            assert_eq!(before[32..], after[32..]);
        }
    }

    #[test]
    fn rows() {
        let fine = [0x20, 0, 0, 0, 0, 0, 0];
        for (feet, step) in [(-1000, 25), (50_175, 25), (-1200, 100), (126_700, 100), (0, 25)] {
            assert_eq!(writing_rows(&fine, feet, step), []);
        }
        for (feet, step) in [
            (-1025, 25),
            (50_200, 25),
            (-1300, 100),
            (126_800, 100),
            (1, 25),
            (-50, 100),
            (0, 0),
            (0, 50),
        ] {
            assert_eq!(writing_rows(&fine, feet, step), [7]);
        }
        assert_eq!(writing_rows(&[0x80; 7], 1, 25), [5, 7]);
        assert_eq!(writing_rows(&[0x80; 6], 1, 25), [1, 7]);
        assert_eq!(reading_rows(&[0x20; 14]), [5]);
    }
}
