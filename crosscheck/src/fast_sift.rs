//! `sift` written for speed, as a measure for the built program: whole words in
//! registers, the remainder by a table of bytes, and in each window the one
//! candidate, got from the next window's by a step of the syndrome.
//!
//! It shares no code with the reference and is compared with it.

use crate::fast::{put_lines, put_number, read_pairs, DIGITS, GENERATOR, MOST, REMAINDERS, WORD};

const HEADER: &[u8] = b"line answer window bits mark message\n";

/// For each byte value its two digits.
static PAIRS: [[u8; 2]; 256] = pairs();

const fn pairs() -> [[u8; 2]; 256] {
    let mut table = [[0; 2]; 256];
    let mut byte = 0;
    while byte < 256 {
        table[byte] = [DIGITS[byte / 16], DIGITS[byte % 16]];
        byte += 1;
    }
    table
}

/// A line's columns: bytes from the left of 16, and how many there are.
struct Request<'a> {
    digits: &'a [u8],
    message: [u8; 16],
    message_bytes: usize,
    confidence: [u8; 16],
    confidence_bytes: usize,
    word: u32,
    limit: u32,
}

/// Reads up to 14 pairs of digits that a space follows, 1 at the least: their
/// bytes, how many, and the rest after the space. With an odd digit or a pair
/// too many it is a digit that follows, and no space.
#[inline]
fn bytes(text: &[u8]) -> Option<([u8; 16], usize, &[u8])> {
    let mut bytes = [0; 16];
    let count = read_pairs(text, &mut bytes[..14]);
    match text.get(2 * count) {
        Some(b' ') if count > 0 => Some((bytes, count, &text[2 * count + 1..])),
        _ => None,
    }
}

/// One or two decimal digits and the end of the line: the number, the rest.
#[inline]
fn limit(text: &[u8]) -> Option<(u32, &[u8])> {
    let value = |digit: u8| digit.is_ascii_digit().then(|| u32::from(digit - b'0'));
    match *text {
        [a] => Some((value(a)?, &[])),
        [a, b'\n', ref rest @ ..] => Some((value(a)?, rest)),
        [a, b] => Some((10 * value(a)? + value(b)?, &[])),
        [a, b, b'\n', ref rest @ ..] => Some((10 * value(a)? + value(b)?, rest)),
        _ => None,
    }
}

/// Reads a line at the start of a text: what it asks, and the lines after it.
#[inline]
fn read(text: &[u8]) -> Option<(Request<'_>, &[u8])> {
    let (message, message_bytes, rest) = bytes(text)?;
    let (confidence, confidence_bytes, rest) = bytes(rest)?;
    let (word, 3, rest) = bytes(rest)? else {
        return None;
    };
    let (limit, rest) = limit(rest)?;
    let word = u32::from_be_bytes([0, word[0], word[1], word[2]]);
    let digits = &text[..2 * message_bytes];
    let request =
        Request { digits, message, message_bytes, confidence, confidence_bytes, word, limit };
    Some((request, rest))
}

/// The remainder of 7 or 14 bytes: the first three as they stand, then a step
/// of the table for each more.
#[inline]
pub fn remainder(message: &[u8]) -> u32 {
    let first = u32::from_be_bytes([0, message[0], message[1], message[2]]);
    message[3..].iter().fold(first, |rest, byte| {
        (rest << 8 & WORD | u32::from(*byte)) ^ REMAINDERS[(rest >> 16) as usize]
    })
}

/// The number of `count` bytes that stand at the left of 16.
#[inline]
pub fn number_of(bytes: [u8; 16], count: usize) -> u128 {
    u128::from_be_bytes(bytes) >> (128 - 8 * count)
}

/// The lowest window with more than `limit` marks. From the first window on the
/// count loses the bit that leaves and gains the one that enters.
#[inline]
pub fn dense_window(low: u128, windows: u32, limit: u32) -> Option<u32> {
    if low.count_ones() <= limit {
        return None;
    }
    let mut leaving = low << (105 - windows);
    let mut entering = leaving << 24;
    let mut count = ((leaving >> 104) as u32).count_ones();
    for window in 0..windows {
        if count > limit {
            return Some(window);
        }
        count += (entering >> 127) as u32;
        count -= (leaving >> 127) as u32;
        leaving <<= 1;
        entering <<= 1;
    }
    None
}

/// The lowest fitting window's place and candidate, and whether another change
/// fits too. From the last window to the first: the candidate of the window
/// before is this one divided by x modulo G. An odd candidate does not lie in
/// the window before, so what fits there is another change. The first bit, which
/// has to agree with the length after the change, is the top bit of window 0.
#[inline]
pub fn fits(low: u128, windows: u32, syndrome: u32, agrees: bool) -> Option<(u32, u32, bool)> {
    let mut candidate = syndrome;
    let mut found = None;
    let mut changes = 0;
    let mut continued = false;
    let mut marks = low;
    for place in 0..windows {
        let odd = candidate & 1;
        let touched = place + 1 == windows && candidate >> 23 == 1;
        if candidate & !(marks as u32) == 0 && agrees != touched {
            changes += u32::from(!continued);
            found = Some((place, candidate));
            continued = odd == 0;
        } else {
            continued = false;
        }
        candidate = candidate >> 1 ^ (GENERATOR >> 1 & odd.wrapping_neg());
        marks >>= 1;
    }
    found.map(|(place, candidate)| (place, candidate, changes > 1))
}

fn put_message(out: &mut Vec<u8>, message: u128, bytes: usize) {
    for byte in &message.to_be_bytes()[16 - bytes..] {
        out.extend_from_slice(&PAIRS[usize::from(*byte)]);
    }
}

fn put_unchanged(out: &mut Vec<u8>, answer: &[u8], value: Option<u32>, request: &Request) {
    out.extend_from_slice(answer);
    match value {
        Some(value) => put_number(out, value),
        None => out.push(b'-'),
    }
    out.extend_from_slice(b" - - ");
    out.extend_from_slice(request.digits);
}

fn refusal(request: &Request) -> Option<u32> {
    if request.message_bytes != 7 && request.message_bytes != 14 {
        Some(1)
    } else if request.confidence_bytes != request.message_bytes {
        Some(2)
    } else if request.limit > 24 {
        Some(4)
    } else {
        None
    }
}

/// Writes the columns after the line number.
#[inline]
fn put_answer(out: &mut Vec<u8>, request: &Request) {
    if let Some(row) = refusal(request) {
        return put_unchanged(out, b" refused ", Some(row), request);
    }
    let bytes = request.message_bytes;
    let syndrome = remainder(&request.message[..bytes]) ^ request.word;
    if syndrome == 0 {
        return put_unchanged(out, b" clean ", None, request);
    }
    let low = number_of(request.confidence, bytes);
    let windows = 8 * bytes as u32 - 23;
    if let Some(window) = dense_window(low, windows, request.limit) {
        return put_unchanged(out, b" dense ", Some(window), request);
    }
    let agrees = (request.message[0] >= 0x80) == (bytes == 14);
    match fits(low, windows, syndrome, agrees) {
        None => put_unchanged(out, b" nofit ", None, request),
        Some((place, candidate, several)) => {
            out.extend_from_slice(b" corrected ");
            put_number(out, windows - 1 - place);
            out.push(b' ');
            put_number(out, candidate.count_ones());
            out.extend_from_slice(if several { b" several " } else { b" sole " });
            let corrected = number_of(request.message, bytes) ^ u128::from(candidate) << place;
            put_message(out, corrected, bytes);
        }
    }
}

/// The whole output for a whole input.
pub fn output(input: &[u8]) -> Vec<u8> {
    if input.len() > MOST {
        return [HEADER, b"too long\n"].concat();
    }
    answers(input)
}

/// The same without the limit: the header, and the answer to each line.
pub fn answers(input: &[u8]) -> Vec<u8> {
    let mut out = Vec::with_capacity(64 + 2 * input.len());
    out.extend_from_slice(HEADER);
    put_lines(&mut out, input, b" malformed - - - -", |out, text| {
        let (request, after) = read(text)?;
        put_answer(out, &request);
        Some(after)
    });
    out
}
