//! What `sift` and `calls` share of their line formats: what a line is, the
//! digits, and the longest input.

/// An input of more bytes is `too long`.
pub const MOST_BYTES: usize = 65_536;

/// The whole output, or all of it after a header, for a longer input.
pub const TOO_LONG: &str = "too long\n";

const DIGITS: &[u8; 16] = b"0123456789ABCDEF";

/// The lines of an input: each ends at a line feed, and a last piece without
/// one is a line if it has a byte.
pub fn lines(input: &[u8]) -> Vec<&[u8]> {
    let mut pieces: Vec<&[u8]> = input.split(|byte| *byte == b'\n').collect();
    if pieces.last().is_some_and(|last| last.is_empty()) {
        pieces.pop();
    }
    pieces
}

/// The output lines, numbered from 1: each line is judged, shown to `met` and
/// printed.
pub fn numbered<J>(
    input: &[u8],
    judge: fn(&[u8]) -> J,
    print: fn(usize, &J) -> String,
    mut met: impl FnMut(usize, &J),
) -> String {
    let mut output = String::new();
    for (index, line) in lines(input).into_iter().enumerate() {
        let judged = judge(line);
        met(index, &judged);
        output += &print(index + 1, &judged);
    }
    output
}

/// The value of a capital hexadecimal digit.
pub fn digit_value(digit: u8) -> Option<u32> {
    DIGITS.iter().position(|known| *known == digit).map(|value| value as u32)
}

/// A number of `fewest` to `most` capital hexadecimal digits, at most eight.
pub fn hex_number(text: &[u8], fewest: usize, most: usize) -> Option<u32> {
    if text.len() < fewest || text.len() > most {
        return None;
    }
    let mut number = 0;
    for digit in text {
        number = 16 * number + digit_value(*digit)?;
    }
    Some(number)
}

/// One to `most` bytes in two capital hexadecimal digits each.
pub fn hex_bytes(text: &[u8], most: usize) -> Option<Vec<u8>> {
    if text.is_empty() || text.len() > 2 * most {
        return None;
    }
    let byte = |pair: &[u8]| hex_number(pair, 2, 2).map(|value| value as u8);
    text.chunks(2).map(byte).collect()
}

/// A number of one to `most` decimal digits, at most nine.
pub fn decimal_number(text: &[u8], most: usize) -> Option<u32> {
    let decimal = text.iter().all(|digit| digit.is_ascii_digit());
    let count = (1..=most).contains(&text.len());
    (decimal && count)
        .then(|| text.iter().fold(0, |number, digit| 10 * number + u32::from(digit - b'0')))
}

/// The same, with a `-` in front of a negative number.
pub fn signed_number(text: &[u8], most: usize) -> Option<i32> {
    match text.strip_prefix(b"-") {
        Some(digits) => decimal_number(digits, most).map(|number| -(number as i32)),
        None => decimal_number(text, most).map(|number| number as i32),
    }
}

/// Bytes as capital hexadecimal digits, nothing for none.
pub fn hex(bytes: &[u8]) -> String {
    bytes.iter().map(|byte| format!("{byte:02X}")).collect()
}

/// The same, with `-` for none.
pub fn hex_or_dash(bytes: &[u8]) -> String {
    if bytes.is_empty() {
        "-".to_string()
    } else {
        hex(bytes)
    }
}

#[cfg(test)]
mod tests {
    use super::*;

    #[test]
    fn pieces_that_are_lines() {
        assert_eq!(lines(b"").len(), 0);
        assert_eq!(lines(b"\n"), [b""]);
        assert_eq!(lines(b"a\n\nb"), [&b"a"[..], b"", b"b"]);
        assert_eq!(lines(b"a\n"), [b"a"]);
    }

    #[test]
    fn digits() {
        assert_eq!(hex_bytes(b"0AFF", 2), Some(vec![0x0A, 0xFF]));
        for bad in [&b""[..], b"0", b"0a", b"0A0", b"0A0B0C", b"0G", b" 0"] {
            assert_eq!(hex_bytes(bad, 2), None);
        }
        assert_eq!(hex_number(b"FFFFFFFF", 1, 8), Some(0xFFFF_FFFF));
        assert_eq!(decimal_number(b"07", 2), Some(7));
        assert_eq!(decimal_number(b"999999999", 9), Some(999_999_999));
        for bad in [&b""[..], b"024", b"+1", b"1A", b" 1"] {
            assert_eq!(decimal_number(bad, 2), None);
        }
        assert_eq!(signed_number(b"-1025", 7), Some(-1025));
        assert_eq!(signed_number(b"-0", 7), Some(0));
        assert_eq!(signed_number(b"-9999999", 7), Some(-9_999_999));
        for bad in [&b""[..], b"-", b"--1", b"1-", b"-00000000", b"+1", b"- 1"] {
            assert_eq!(signed_number(bad, 7), None);
        }
    }
}
