//! What the two programs written for speed share: the tables, digits, and the
//! lines of an input. It shares no code with the reference.

use std::io::{Read, Write};

pub const GENERATOR: u32 = 0x1FF_F409;
pub const WORD: u32 = 0xFF_FFFF;
pub const DIGITS: &[u8; 16] = b"0123456789ABCDEF";

/// A longer input is `too long`.
pub const MOST: usize = 65_536;

/// For each byte value b the remainder of b·x^24.
pub static REMAINDERS: [u32; 256] = remainders();

/// For each byte its value as a hexadecimal digit, or 255.
static VALUES: [u8; 256] = values();

/// The register after one bit more.
pub const fn step(register: u32, bit: u32) -> u32 {
    let top = register >> 23 ^ bit;
    (register << 1 & WORD) ^ (GENERATOR & WORD & top.wrapping_neg())
}

const fn remainders() -> [u32; 256] {
    let mut table = [0; 256];
    let mut byte = 0;
    while byte < 256 {
        let mut register = 0;
        let mut at = 8;
        while at > 0 {
            at -= 1;
            register = step(register, byte as u32 >> at & 1);
        }
        table[byte] = register;
        byte += 1;
    }
    table
}

const fn values() -> [u8; 256] {
    let mut table = [255; 256];
    let mut value = 0;
    while value < 16 {
        table[DIGITS[value] as usize] = value as u8;
        value += 1;
    }
    table
}

/// Reads pairs of digits at the start of a text, as many as there is room for;
/// their number.
#[inline]
pub fn read_pairs(text: &[u8], bytes: &mut [u8]) -> usize {
    let mut count = 0;
    for (byte, pair) in bytes.iter_mut().zip(text.chunks_exact(2)) {
        let (high, low) = (VALUES[usize::from(pair[0])], VALUES[usize::from(pair[1])]);
        if high | low > 15 {
            break;
        }
        *byte = high << 4 | low;
        count += 1;
    }
    count
}

/// Writes a number in decimal digits.
#[inline]
pub fn put_number(out: &mut Vec<u8>, number: u32) {
    let mut digits = [0; 10];
    let mut at = digits.len();
    let mut rest = number;
    loop {
        at -= 1;
        digits[at] = b'0' + (rest % 10) as u8;
        rest /= 10;
        if rest == 0 {
            break;
        }
    }
    out.extend_from_slice(&digits[at..]);
}

/// Writes a line for each line of the input: its number, and what `answer`
/// writes to the line at the start of a text, which gives back the lines after
/// it, or none for a malformed one.
#[inline]
pub fn put_lines(
    out: &mut Vec<u8>,
    input: &[u8],
    malformed: &[u8],
    answer: impl for<'a> Fn(&mut Vec<u8>, &'a [u8]) -> Option<&'a [u8]>,
) {
    let mut rest = input;
    let mut number = 0;
    while !rest.is_empty() {
        number += 1;
        put_number(out, number);
        rest = answer(out, rest).unwrap_or_else(|| {
            out.extend_from_slice(malformed);
            let end = rest.iter().position(|byte| *byte == b'\n').unwrap_or(rest.len() - 1);
            &rest[end + 1..]
        });
        out.push(b'\n');
    }
}

/// Reads standard input to its end and answers by `output` on standard output.
pub fn serve_all(output: fn(&[u8]) -> Vec<u8>) -> std::io::Result<()> {
    let mut input = Vec::new();
    std::io::stdin().lock().read_to_end(&mut input)?;
    std::io::stdout().lock().write_all(&output(&input))
}

/// Reads standard input, one byte beyond the most at the most, and answers by
/// `output` on standard output.
pub fn serve(output: fn(&[u8]) -> Vec<u8>) -> std::io::Result<()> {
    let mut input = Vec::with_capacity(MOST + 32);
    std::io::stdin().lock().take(MOST as u64 + 1).read_to_end(&mut input)?;
    std::io::stdout().lock().write_all(&output(&input))
}
