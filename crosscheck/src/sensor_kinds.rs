//! The kinds of lines `sensor` for `calls` that a run has to meet beside those
//! that every call has, and what kinds such a line is of.

use crate::calls::{Reply, MOST_LIMIT_DIGITS, MOST_STRING};
use crate::rules::{above_24_bits, remainder_of_message, HIGHEST};
use crate::sensor_lines::{defects, LIMITS, MALFORMED};
use crate::sift::Request;
use crate::tally::{Group, Tally};

const CONFIDENCE: &str = "sensor: by the bytes of the confidence";
const EQUAL: &str = "sensor: message and confidence of one length, by the bytes";
const DIFFERENT: &str = "sensor: message and confidence of two lengths, by the bytes of each";
const REFUSED_PAIR: &str = "sensor: refused 2, by the bytes of message and confidence";
const REFUSED_LIMIT: &str = "sensor: refused 4, by the limit";
const DIGITS: &str = "sensor: not refused, by the digits of the limit";
const REFUSED_CLEAN: &str = "sensor: refused though the message carries the word";

const ANOTHER: &str = "another";
const LOW_BITS: &str = "refused 3, and the message carries the word's low 24 bits";

/// The rows that can refuse a message of 7 or 14 bytes and a word of 24 bits.
const ROWS_OF_A_CLEAN_ONE: [&str; 2] = ["refused 2", "refused 4"];

/// The rows of the table that can meet, and each alone: all sets of 1 to 4.
pub fn sets_of_rows() -> Vec<String> {
    let rows = |set: u8| (1..=4).filter(move |row| set >> (row - 1) & 1 == 1);
    let text = |set| rows(set).map(|row: u8| row.to_string()).collect::<Vec<_>>().join(", ");
    (1..16).map(text).collect()
}

/// The groups that the sensor has beside those of all calls.
pub fn groups() -> Vec<Group> {
    let lengths = 0..=MOST_STRING;
    let of_each = ["message", "confidence"]
        .into_iter()
        .flat_map(|name| lengths.clone().map(move |bytes| format!("{name} of {bytes}")));
    let pairs = [7, 14].into_iter().flat_map(|m| {
        let others = (0..=MOST_STRING).filter(move |c| *c != m);
        others.map(move |c| format!("{m} and {c}"))
    });
    let mut limits: Vec<String> = LIMITS.iter().map(u32::to_string).collect();
    limits.push(ANOTHER.to_string());
    vec![
        Group::summed(CONFIDENCE, lengths.clone()),
        Group::summed(EQUAL, lengths.clone()),
        Group::summed(DIFFERENT, of_each),
        Group::summed(REFUSED_PAIR, pairs),
        Group::each(REFUSED_LIMIT, limits),
        Group::summed(DIGITS, 1..=MOST_LIMIT_DIGITS),
        Group::each(REFUSED_CLEAN, ROWS_OF_A_CLEAN_ONE.iter().chain(&[LOW_BITS])),
        Group::each(MALFORMED, defects().iter().map(|defect| defect.0)),
    ]
}

/// Counts a line under the kinds that are the sensor's own.
pub fn count(tally: &mut Tally, line: &[u8], request: &Request, reply: &Reply) {
    let (message, confidence) = (request.message.len(), request.confidence.len());
    tally.add(CONFIDENCE, confidence);
    if message == confidence {
        tally.add(EQUAL, message);
    } else {
        tally.add(DIFFERENT, format!("message of {message}"));
        tally.add(DIFFERENT, format!("confidence of {confidence}"));
    }
    match reply {
        Reply::Refused(row) => count_refused(tally, request, *row),
        _ => {
            let limit = line.rsplit(|byte| *byte == b' ').next().unwrap_or(b"");
            tally.add(DIGITS, limit.len());
        }
    }
}

fn count_refused(tally: &mut Tally, request: &Request, row: u8) {
    let (message, confidence) = (request.message.len(), request.confidence.len());
    match row {
        2 => tally.add(REFUSED_PAIR, format!("{message} and {confidence}")),
        4 if LIMITS.contains(&request.limit) => tally.add(REFUSED_LIMIT, request.limit),
        4 => tally.add(REFUSED_LIMIT, ANOTHER),
        _ => (),
    }
    if row == 1 || remainder_of_message(&request.message) != request.word & HIGHEST {
        return;
    }
    match row {
        3 => tally.add(REFUSED_CLEAN, LOW_BITS),
        _ if above_24_bits(request.word) => (),
        _ => tally.add(REFUSED_CLEAN, format!("refused {row}")),
    }
}
