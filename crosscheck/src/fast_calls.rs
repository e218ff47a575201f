//! `calls` written for speed, for the lines `bits`, `bytes` and `rows` alone: R
//! of a field by the register, by a table of 256 remainders, and by a table of
//! 88 rows. A line of another call is malformed here.
//!
//! It shares no code with the reference and is compared with it.

use crate::fast::{put_lines, read_pairs, step, DIGITS, GENERATOR, MOST, REMAINDERS, WORD};

/// For each bit of a long field the remainder it adds.
static ROWS: [u32; 88] = rows();

const fn rows() -> [u32; 88] {
    let mut table = [0; 88];
    let mut row = GENERATOR & WORD;
    let mut at = 88;
    while at > 0 {
        at -= 1;
        table[at] = row;
        row = step(row, 0);
    }
    table
}

/// The register stands at the left of 32 bits, so that its top bit is a sign.
fn by_register(field: &[u8]) -> u32 {
    let mut register = 0u32;
    for byte in field {
        register ^= u32::from(*byte) << 24;
        for _ in 0..8 {
            let top = (register as i32 >> 31) as u32;
            register = register << 1 ^ (GENERATOR << 8 & top);
        }
    }
    register >> 8
}

fn by_bytes(field: &[u8]) -> u32 {
    field.iter().fold(0, |rest: u32, byte| {
        (rest << 8 & WORD) ^ REMAINDERS[usize::from((rest >> 16) as u8 ^ byte)]
    })
}

fn by_rows(field: &[u8]) -> u32 {
    let rows = &ROWS[88 - 8 * field.len()..];
    let mut sum = 0;
    for (byte, eight) in field.iter().zip(rows.chunks_exact(8)) {
        for (at, row) in eight.iter().enumerate() {
            sum ^= row & (u32::from(*byte) >> (7 - at) & 1).wrapping_neg();
        }
    }
    sum
}

/// Reads a byte string and the end of the line: its bytes, their number, and
/// the lines after it.
#[inline]
fn string(text: &[u8]) -> Option<([u8; 32], usize, &[u8])> {
    let mut bytes = [0; 32];
    let count = read_pairs(text, &mut bytes);
    let rest = match (count, text) {
        (0, [b'-', rest @ ..]) => rest,
        (0, _) => return None,
        _ => &text[2 * count..],
    };
    match rest {
        [] => Some((bytes, count, rest)),
        [b'\n', after @ ..] => Some((bytes, count, after)),
        _ => None,
    }
}

/// A way to R, a field, and the lines after it.
type Read<'a> = (fn(&[u8]) -> u32, ([u8; 32], usize, &'a [u8]));

/// Reads a line at the start of a text.
#[inline]
fn read(text: &[u8]) -> Option<Read<'_>> {
    Some(match text {
        [b'b', b'i', b't', b's', b' ', rest @ ..] => (by_register, string(rest)?),
        [b'b', b'y', b't', b'e', b's', b' ', rest @ ..] => (by_bytes, string(rest)?),
        [b'r', b'o', b'w', b's', b' ', rest @ ..] => (by_rows, string(rest)?),
        _ => return None,
    })
}

fn put_value(out: &mut Vec<u8>, value: u32) {
    let mut text = *b" value 000000 -";
    for place in 0..6 {
        text[12 - place] = DIGITS[(value >> (4 * place) & 15) as usize];
    }
    out.extend_from_slice(&text);
}

/// The whole output for a whole input.
pub fn output(input: &[u8]) -> Vec<u8> {
    if input.len() > MOST {
        return b"too long\n".to_vec();
    }
    let mut out = Vec::with_capacity(64 + 2 * input.len());
    put_lines(&mut out, input, b" malformed - -", |out, text| {
        let (way, (bytes, count, after)) = read(text)?;
        match count {
            4 | 11 => put_value(out, way(&bytes[..count])),
            _ => out.extend_from_slice(b" refused 1 -"),
        }
        Some(after)
    });
    out
}
