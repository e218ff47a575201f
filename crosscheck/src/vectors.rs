//! Published values, each with its source. The reference has to meet them all
//! before anything is compared.
//!
//! Of ATC-40's tables only the rows that can be read without guessing in the
//! copy at hand are held. The row of bit 60 looks whole there, but a digit was
//! lost and another added in the scan, so it is left out. Of the example in its
//! Section 5 the parity is held; the copy has lost two of its 24 digits, and the
//! others agree in their order. The example's encoded address (for 90C000) and
//! its address/parity end in 0 there, but rows 1, 4, 9 and 10 of the report's
//! own Table I add up to a sequence that ends in 1, so these two are left out.
//!
//! The files of pyModeS were not at hand: its altitudes are held from memory.

use crate::altitude::{self, Altitude};
use crate::poly::*;
use crate::rules::*;
use crate::text::hex_bytes;
use crate::{calls, sift};

const BENCH: &str = "document 01, bench values";
const TABLE_1: &str = "ATC-40, Table I";
const TABLE_2: &str = "ATC-40, Table II";
const TABLE_2_ERRATA: &str = "ATC-40, errata sheet to Table II (as document 01 reads it)";
const EXAMPLE: &str = "ATC-40, Section 5, the example";
const TEST_PATTERNS: &str = "ATC-40, Section 6, the test patterns";
const DOWNLINK: &str = "ATC-48, III.3.1, the premultipliers";
const CODE: &str = "ATC-48, III, and ATC-49, II-1.1, properties of the code";
const HANDBOOK: &str = "J. Sun, The 1090 Megahertz Riddle, and the tests of pyModeS";
const SURVEILLANCE: &str = "the tests of pyModeS, test_surv.py";
const COMMON: &str = "the tests of pyModeS, test_common.py";

/// R of a field: field, R, source.
const PARITIES: [(&str, u32, &str); 9] = [
    ("00000000", 0x00_0000, BENCH),
    ("00000001", 0xFF_F409, BENCH),
    ("00000002", 0x00_1C1B, BENCH),
    ("00000003", 0xFF_E812, BENCH),
    ("00008000", 0xF9_1024, BENCH),
    ("C0850088", 0x29_4A94, EXAMPLE),
    // 'Yields one non-zero bit of parity', and the division says which.
    ("00FFFA04", 0x80_0000, TEST_PATTERNS),
    ("0000000000000000FFFA04", 0x80_0000, TEST_PATTERNS),
    ("8000000000000000000000", 0x39_35EA, TEST_PATTERNS),
];

/// R of a long field with a single one: its bit, R, source.
const ROWS: [(usize, u32, &str); 8] = [
    (61, 0xA0_1E91, TABLE_2),
    (67, 0x45_7C29, TABLE_2),
    (73, 0xF9_1024, TABLE_2_ERRATA),
    (80, 0x0E_0D80, TABLE_2),
    (83, 0x01_C1B0, TABLE_2),
    (84, 0x00_E0D8, TABLE_2),
    (86, 0x00_3836, TABLE_2),
    (87, 0x00_1C1B, TABLE_2),
];

/// The overlay of an address with a single one: the address bit, overlay.
const OVERLAYS: [(usize, u32); 19] = [
    (1, 0xFF_FA04),
    (6, 0x07_FFD0),
    (7, 0x03_FFE8),
    (8, 0x01_FFF4),
    (10, 0x00_7FFD),
    (11, 0x00_3FFE),
    (12, 0x00_1FFF),
    (13, 0x00_0FFF),
    (14, 0x00_07FF),
    (15, 0x00_03FF),
    (16, 0x00_01FF),
    (17, 0x00_00FF),
    (18, 0x00_007F),
    (19, 0x00_003F),
    (20, 0x00_001F),
    (21, 0x00_000F),
    (22, 0x00_0007),
    (23, 0x00_0003),
    (24, 0x00_0001),
];

/// The word a whole reply carries: message, word.
const REPLIES: [(&str, u32); 6] = [
    ("8D4840D6202CC371C32CE0576098", 0x00_0000),
    ("8D406B902015A678D4D220AA4BDA", 0x00_0000),
    ("8D40621D58C382D690C8AC2863A7", 0x00_0000),
    ("A800089D8094E33A6004E4B8A522", 0x49_53D4),
    ("5D484FDEA248F5", 0x00_0016),
    ("2A00516D492B80", 0x51_0AF9),
];

/// Altitudes of whole replies: message, feet, source.
const ALTITUDES: [(&str, i32, &str); 2] =
    [("A02014B400000000000000F9D514", 32_300, COMMON), ("20001718029FCD", 36_000, SURVEILLANCE)];

/// Altitudes in the 100-foot code: D2 D4 A1 A2 A4 B1 B2 B4 C1 C2 C4, feet.
const HUNDREDS: [(&str, i32); 15] = [
    ("00000000010", -1000),
    ("00000001010", -500),
    ("00000011011", -100),
    ("00000011010", 0),
    ("00000011110", 100),
    ("00000010011", 600),
    ("00000110010", 1000),
    ("00001001001", 5800),
    ("00011100100", 10_300),
    ("01100011010", 32_000),
    ("01110000100", 46_300),
    ("01010101100", 50_200),
    ("11011110100", 73_200),
    ("10000000011", 126_600),
    ("10000000001", 126_700),
];

/// Lines for `calls` and what comes after the line number.
const CALLS: [(&str, &str, &str); 13] = [
    ("reply 00008000000000 123456", "sealed - 00008000EB2472", BENCH),
    ("interrogation 00000000000000 2", "sealed - 00000000000003", BENCH),
    ("interrogation 00000000000000 3", "sealed - 00000000000002", BENCH),
    ("interrogation 00000000000000 800000", "sealed - 00000000FFFA04", BENCH),
    ("interrogation 00000000000000 FFFFFF", "sealed - 00000000AAAC07", BENCH),
    ("transponder 00000000000003 123456", "notours 000002 -", BENCH),
    ("transponder 00000000AAAC07 123456", "notours FFFFFF -", BENCH),
    ("transponder 00000000000003 2", "own - -", BENCH),
    ("remainder 000000000000", "refused 1 -", "document 01, refused calls, row 1"),
    ("overlay 1000000", "refused 3 -", "document 01, refused calls, row 3"),
    ("reply 80000000000000 0", "refused 5 80000000000000", "document 01, refused calls, row 5"),
    ("transponder 00000000000000 FFFFFF", "refused 6 -", "document 01, refused calls, row 6"),
    ("bits C0850088", "value 294A94 -", EXAMPLE),
];

/// Lines for `sift` and what comes after the line number, all from document 01.
const SIFT: [(&str, &str); 13] = [
    ("00000000EB2472 00008000000000 123456 24", "corrected 0 1 sole 00008000EB2472"),
    ("00000000EB2472 00008000000000 123456 0", "dense 0 - - 00000000EB2472"),
    ("00000000EB2472 00004000000000 123456 24", "nofit - - - 00000000EB2472"),
    ("00000000EB2472 0000C000000000 123456 2", "corrected 0 1 sole 00008000EB2472"),
    ("00000000EB2472 0000C000000000 123456 1", "dense 0 - - 00000000EB2472"),
    ("00008000EB2473 00000000000001 123456 24", "corrected 32 1 sole 00008000EB2472"),
    ("00000001000000 00000001FFF409 000000 15", "corrected 8 1 several 00000000000000"),
    ("00000001000000 00000001FFF409 000000 14", "dense 29 - - 00000001000000"),
    ("00008000EB2472 00000000000000 123456 24", "clean - - - 00008000EB2472"),
    ("00000000EB2472 00000000000000 123456 25", "refused 4 - - 00000000EB2472"),
    ("00000000EB2472 0000800000000000000000000000 123456 24", "refused 2 - - 00000000EB2472"),
    ("000000000000 000000000000 000000 24", "refused 1 - - 000000000000"),
    ("", "malformed - - - -"),
];

/// One published value: what it is, and whether the reference meets it.
struct Check {
    name: String,
    source: &'static str,
    met: bool,
}

fn check(name: String, source: &'static str, met: bool) -> Check {
    Check { name, source, met }
}

fn single(bit: usize, length: usize) -> Bits {
    (1..=length).map(|k| k == bit).collect()
}

fn parity_checks() -> Vec<Check> {
    let mut checks = Vec::new();
    for (field, expected, source) in PARITIES {
        let bytes = hex_bytes(field.as_bytes(), 11).expect("digits");
        let met = parity_of_bytes(&bytes) == expected;
        checks.push(check(format!("R of {field}"), source, met));
    }
    for (bit, expected, source) in ROWS {
        let mut met = word_of_bits(&parity(&single(bit, 88))) == expected;
        if bit > 56 {
            met &= word_of_bits(&parity(&single(bit - 56, 32))) == expected;
        }
        checks.push(check(format!("the row of bit {bit}"), source, met));
    }
    for (bit, expected) in OVERLAYS {
        let met = overlay(word_of_bits(&single(bit, DEGREE))) == expected;
        checks.push(check(format!("overlay of address bit {bit}"), TABLE_1, met));
    }
    checks
}

fn message_checks() -> Vec<Check> {
    let mut checks = Vec::new();
    for (message, expected) in REPLIES {
        let bytes = hex_bytes(message.as_bytes(), 14).expect("digits");
        let met = remainder_of_message(&bytes) == expected;
        checks.push(check(format!("remainder of {message}"), HANDBOOK, met));
    }
    for (line, expected, source) in CALLS {
        let met = calls::print(1, &calls::judge(line.as_bytes())) == format!("1 {expected}\n");
        checks.push(check(format!("calls: {line}"), source, met));
    }
    for (line, expected) in SIFT {
        let met = sift::print(1, &sift::judge(line.as_bytes())) == format!("1 {expected}\n");
        checks.push(check(format!("sift: {line}"), BENCH, met));
    }
    checks
}

fn altitude_checks() -> Vec<Check> {
    let mut checks = Vec::new();
    for (message, feet, source) in ALTITUDES {
        let bytes = hex_bytes(message.as_bytes(), 14).expect("digits");
        let met = altitude::read(&bytes) == Some(Altitude::Feet(feet));
        checks.push(check(format!("altitude of {message}"), source, met));
    }
    for (pulses, feet) in HUNDREDS {
        let bits: Bits = pulses.bytes().map(|digit| digit == b'1').collect();
        let code = altitude::of_pulses(&bits);
        let met =
            altitude::decode(&code) == Altitude::Feet(feet) && altitude::encode(feet, 100) == code;
        checks.push(check(format!("altitude of {pulses}"), COMMON, met));
    }
    checks
}

/// ATC-48's x^(e-88) and x^(e-32): x^e has the remainder 1, so these are 88 and
/// 32 steps back from 1. And the factors of G, and x^e itself.
fn code_checks() -> Vec<Check> {
    let steps = |count| (0..count).fold(1, |word, _| step_back(word));
    let long = word_of_bits(&polynomial(&[21, 19, 18, 17, 16, 15, 14, 13, 10, 7, 6, 5, 4]));
    let short = word_of_bits(&polynomial(&[23, 22, 18, 17, 15, 13, 7, 6, 5, 1, 0]));
    vec![
        check("88 steps back from 1".into(), DOWNLINK, steps(88) == long),
        check("32 steps back from 1".into(), DOWNLINK, steps(32) == short),
        check("the factors of G".into(), CODE, factors_multiply_to_generator()),
        check("x^e, e = 21(2^17 - 1)".into(), CODE, power_of_x(21 * ((1 << 17) - 1)) == 1),
    ]
}

/// G's factors: ATC-48, III; ATC-49, II-1.1.
pub fn factors() -> [Bits; 3] {
    [
        polynomial(&[1, 0]),
        polynomial(&[6, 5, 4, 2, 0]),
        polynomial(&[17, 16, 15, 13, 10, 8, 7, 6, 5, 4, 3, 1, 0]),
    ]
}

fn factors_multiply_to_generator() -> bool {
    let [a, b, c] = factors();
    product(&product(&a, &b), &c) == *generator()
}

/// The remainder of x^exponent, by squaring.
fn power_of_x(exponent: usize) -> u32 {
    let mut power = bits_of_word(1, DEGREE);
    for digit in (0..usize::BITS - exponent.leading_zeros()).rev() {
        power = remainder(&product(&power, &power));
        if exponent >> digit & 1 == 1 {
            power = remainder(&times_power(&power, 1));
        }
    }
    word_of_bits(&power)
}

/// Checks all published values: their number, or those that are not met.
pub fn check_all() -> Result<usize, String> {
    let mut checks = parity_checks();
    checks.extend(message_checks());
    checks.extend(altitude_checks());
    checks.extend(code_checks());
    let missed: Vec<String> = checks
        .iter()
        .filter(|check| !check.met)
        .map(|check| format!("not met: {} ({})", check.name, check.source))
        .collect();
    if missed.is_empty() {
        Ok(checks.len())
    } else {
        Err(missed.join("\n"))
    }
}

#[cfg(test)]
mod tests {
    #[test]
    fn the_reference_meets_published_values() {
        assert_eq!(super::check_all(), Ok(89));
    }
}
