//! What `sift` has to print for a whole input (document 01, 'The program
//! sift').

use crate::sensor::{sense, Answer, Verdict};
use crate::text::*;

pub const HEADER: &str = "line answer window bits mark message\n";

/// A well-formed line: a call of the sensor.
#[derive(Debug, Clone, PartialEq, Eq)]
pub struct Request {
    pub message: Vec<u8>,
    pub confidence: Vec<u8>,
    pub word: u32,
    pub limit: u32,
}

/// What came of a line: nothing if it is malformed.
pub type Judged = Option<(Request, Verdict)>;

/// Reads a line without its line feed; none if it is malformed.
pub fn read(line: &[u8]) -> Option<Request> {
    let columns: Vec<&[u8]> = line.split(|byte| *byte == b' ').collect();
    let [message, confidence, word, limit] = columns[..] else {
        return None;
    };
    Some(Request {
        message: hex_bytes(message, 14)?,
        confidence: hex_bytes(confidence, 14)?,
        word: hex_number(word, 6, 6)?,
        limit: decimal_number(limit, 2)?,
    })
}

/// Reads a line and calls the sensor.
pub fn judge(line: &[u8]) -> Judged {
    let request = read(line)?;
    let verdict = sense(&request.message, &request.confidence, request.word, request.limit);
    Some((request, verdict))
}

/// The output line for what came of line `number`.
pub fn print(number: usize, judged: &Judged) -> String {
    let Some((_, verdict)) = judged else {
        return format!("{number} malformed - - - -\n");
    };
    let columns = match verdict.answer {
        Answer::Refused(row) => format!("refused {row} - -"),
        Answer::Clean => "clean - - -".to_string(),
        Answer::Dense { window } => format!("dense {window} - -"),
        Answer::NoFit => "nofit - - -".to_string(),
        Answer::Corrected { window, ones, mark } => {
            format!("corrected {window} {ones} {}", mark.word())
        }
    };
    format!("{number} {columns} {}\n", hex(&verdict.message))
}

/// The whole output for a whole input; `met` is shown each line's outcome.
pub fn output_and_show(input: &[u8], met: impl FnMut(usize, &Judged)) -> Vec<u8> {
    if input.len() > MOST_BYTES {
        return [HEADER, TOO_LONG].concat().into_bytes();
    }
    answers_and_show(input, met)
}

/// The same without the limit: the header, and the answer to each line.
pub fn answers_and_show(input: &[u8], met: impl FnMut(usize, &Judged)) -> Vec<u8> {
    (HEADER.to_string() + &numbered(input, judge, print, met)).into_bytes()
}

pub fn output(input: &[u8]) -> Vec<u8> {
    output_and_show(input, |_, _| ())
}

#[cfg(test)]
mod tests {
    use super::*;

    const LINE: &[u8] = b"00000000EB2472 00008000000000 123456 24";

    #[test]
    fn document_01s_example() {
        let input = b"00000000EB2472 00008000000000 123456 24\n\
            00008000EB2472 00000000000000 123456 24\n\
            00000000EB2472 00000000000000 123456 25\n";
        let expected = "line answer window bits mark message\n\
            1 corrected 0 1 sole 00008000EB2472\n\
            2 clean - - - 00008000EB2472\n\
            3 refused 4 - - 00000000EB2472\n";
        assert_eq!(String::from_utf8_lossy(&output(input)), expected);
    }

    #[test]
    fn inputs_at_the_edges() {
        let ends = |input: &[u8], end: &str| {
            assert_eq!(String::from_utf8_lossy(&output(input)), HEADER.to_string() + end);
        };
        ends(b"", "");
        ends(b"\n", "1 malformed - - - -\n");
        ends(LINE, "1 corrected 0 1 sole 00008000EB2472\n");
        ends(&[LINE, b"\r\n"].concat(), "1 malformed - - - -\n");
        ends(&[b'0'; MOST_BYTES], "1 malformed - - - -\n");
        ends(&[b'0'; MOST_BYTES + 1], "too long\n");
    }

    #[test]
    fn columns_and_digits() {
        assert!(read(LINE).is_some());
        for (digits, other) in
            [("123456", "12345"), ("123456", "0123456"), (" 24", " 024"), ("EB2472", "eb2472")]
        {
            let line = String::from_utf8_lossy(LINE).replace(digits, other);
            assert!(read(line.as_bytes()).is_none(), "{line}");
        }
    }
}
