//! The kinds of lines `altitude` and `write` for `calls` that a run has to meet
//! beside those that every call has, and what kinds such a line is of.

use crate::altitude::*;
use crate::altitude_lines::*;
use crate::calls::{Call, Reply, MOST_FEET_DIGITS};
use crate::poly::word_of_bits;
use crate::rules::format_number;
use crate::tally::{Group, Tally};

const CODES: &str = "altitude: read, by format and code";
const WRITTEN: &str = "write: written, by format, altitude and step";
const OVER: &str = "write: written, by format, step and what stood there";
const NOUGHT: &str = "write: nought with a sign written, by step";
const BY_FORMAT: &str = "altitude and write: not refused, by format";
const ELSEWHERE: &str = "write: refused 7 in a format without the field";
const WRONG_STEP: &str = "write: refused 7 for the step alone";
const OUT_OF_RANGE: &str = "write: refused 7, out of the code, by step and altitude";
const OFF: &str = "write: refused 7, off the step, by step and remainder";
const FEET_DIGITS: &str = "write: by the digits of the altitude, with a sign or without";
const STEP_DIGITS: &str = "write: by the digits of the step";

const ANOTHER: &str = "another";

/// What can stand in the field before an altitude is written.
const OLD: [&str; 5] = ["none", "metric", "illegal", "feet by 25", "feet by 100"];

/// The answers of both calls.
pub fn answers() -> Vec<String> {
    let mut kinds = Vec::new();
    for answer in ["feet", "none", "metric", "illegal", "nofield"] {
        kinds.extend([7, 14].map(|bytes| format!("altitude {answer}, {bytes} bytes")));
    }
    kinds.extend([1, 5].map(|row| format!("altitude refused {row}")));
    for answer in ["written", "nofield"] {
        kinds.extend([7, 14].map(|bytes| format!("write {answer}, {bytes} bytes")));
    }
    kinds.extend([1, 5, 7].map(|row| format!("write refused {row}")));
    kinds
}

/// The rows of the table that can meet in a call, and each alone. Rows 1 and 5
/// cannot meet.
pub fn sets_of_rows() -> Vec<String> {
    let reading = ["1", "5"].map(|rows| format!("altitude {rows}"));
    let writing = ["1", "5", "7", "1, 7", "5, 7"].map(|rows| format!("write {rows}"));
    reading.into_iter().chain(writing).collect()
}

fn all_altitudes() -> Vec<String> {
    let mut kinds = Vec::new();
    for format in FORMATS {
        for step in STEPS {
            let of = |feet: &i32| altitude_kind(format, *feet, step);
            kinds.extend(altitudes(step).iter().map(of));
        }
    }
    kinds
}

fn over() -> Vec<String> {
    let mut kinds = Vec::new();
    for format in FORMATS {
        for step in STEPS {
            kinds.extend(OLD.map(|old| format!("{format}, by {step}, over {old}")));
        }
    }
    kinds
}

fn remainders() -> Vec<String> {
    let of =
        |step: u32| (1..step).flat_map(move |k| [format!("{step}: {k}"), format!("{step}: -{k}")]);
    STEPS.into_iter().flat_map(of).collect()
}

/// The groups that the two calls have beside those of all calls.
pub fn groups() -> Vec<Group> {
    let codes = FORMATS
        .into_iter()
        .flat_map(|format| (0..1 << 13).map(move |code| format!("{format}: {code}")));
    let by_format = ["altitude", "write"]
        .into_iter()
        .flat_map(|name| (0..32).map(move |format| format!("{name} {format}")));
    let mut steps: Vec<String> = OTHER_STEPS.iter().map(u32::to_string).collect();
    steps.push(ANOTHER.to_string());
    let feet_digits = (1..=MOST_FEET_DIGITS).flat_map(|n| [format!("{n}"), format!("-{n}")]);
    vec![
        Group::summed(CODES, codes),
        Group::summed(WRITTEN, all_altitudes()),
        Group::summed(READ_BACK, all_altitudes()),
        Group::each(OVER, over()),
        Group::each(NOUGHT, STEPS),
        Group::summed(BY_FORMAT, by_format),
        Group::summed(ELSEWHERE, (0..32).filter(|format| !FORMATS.contains(format))),
        Group::each(WRONG_STEP, steps),
        Group::each(OUT_OF_RANGE, OUTSIDE.map(|(step, feet)| format!("{step}: {feet}"))),
        Group::summed(OFF, remainders()),
        Group::summed(FEET_DIGITS, feet_digits),
        Group::summed(STEP_DIGITS, 1..=MOST_FEET_DIGITS),
        Group::each(READING_MALFORMED, reading_defects().iter().map(|defect| defect.0)),
        Group::each(WRITING_MALFORMED, writing_defects().iter().map(|defect| defect.0)),
    ]
}

/// Counts a line under the kinds that are the two calls' own.
pub fn count(tally: &mut Tally, line: &[u8], call: &Call, reply: &Reply) {
    match call {
        Call::Altitude(message) => count_reading(tally, message, reply),
        Call::Write(message, feet, step) => {
            let texts: Vec<&[u8]> = line.split(|byte| *byte == b' ').collect();
            count_texts(tally, texts[2], texts[3]);
            count_writing(tally, message, *feet, *step, reply);
            if *feet == 0 && texts[2][0] == b'-' && matches!(reply, Reply::Written(_)) {
                tally.add(NOUGHT, step);
            }
        }
        _ => (),
    }
}

fn count_reading(tally: &mut Tally, message: &[u8], reply: &Reply) {
    if matches!(reply, Reply::Refused(_)) {
        return;
    }
    let format = format_number(message);
    tally.add(BY_FORMAT, format!("altitude {format}"));
    if let Reply::Said(_) = reply {
        tally.add(CODES, format!("{format}: {}", word_of_bits(&code(message))));
    }
}

fn count_texts(tally: &mut Tally, feet: &[u8], step: &[u8]) {
    match feet.strip_prefix(b"-") {
        Some(digits) => tally.add(FEET_DIGITS, format!("-{}", digits.len())),
        None => tally.add(FEET_DIGITS, feet.len()),
    }
    tally.add(STEP_DIGITS, step.len());
}

fn count_writing(tally: &mut Tally, message: &[u8], feet: i32, step: u32, reply: &Reply) {
    match reply {
        Reply::Refused(7) => count_refused(tally, message, feet, step),
        Reply::Refused(_) => (),
        _ => tally.add(BY_FORMAT, format!("write {}", format_number(message))),
    }
    if let Reply::Written(_) = reply {
        let format = format_number(message);
        tally.add(WRITTEN, altitude_kind(format, feet, step));
        tally.add(OVER, format!("{format}, by {step}, over {}", old(message)));
    }
}

/// What stands in the field.
fn old(message: &[u8]) -> &'static str {
    let code = code(message);
    match decode(&code) {
        Altitude::NoAltitude => OLD[0],
        Altitude::Metric => OLD[1],
        Altitude::Illegal => OLD[2],
        Altitude::Feet(feet) if !wrong_altitude(feet, 25) && encode(feet, 25) == code => OLD[3],
        Altitude::Feet(_) => OLD[4],
    }
}

fn count_refused(tally: &mut Tally, message: &[u8], feet: i32, step: u32) {
    let format = format_number(message);
    if !FORMATS.contains(&format) {
        tally.add(ELSEWHERE, format);
        return;
    }
    let Some((first, last)) = range(step) else {
        if STEPS.iter().any(|step| wrong_altitude(feet, *step)) {
            return;
        }
        match OTHER_STEPS.contains(&step) {
            true => tally.add(WRONG_STEP, step),
            false => tally.add(WRONG_STEP, ANOTHER),
        }
        return;
    };
    if OUTSIDE.contains(&(step, feet)) {
        tally.add(OUT_OF_RANGE, format!("{step}: {feet}"));
    } else if first < feet && feet < last {
        tally.add(OFF, format!("{step}: {}", feet % step as i32));
    }
}
