//! What `calls` has to print for a whole input: one public call a line, four
//! columns out (line number, answer, value, message after a seal, the sensor or
//! the writing of an altitude; of two antennas the part).

use crate::altitude::{self, reading_rows, writing_rows, Altitude};
use crate::antennas::{antenna_rows, take, Antenna, Received};
use crate::rules::*;
use crate::sensor::{sense, sensor_rows, Answer};
use crate::sift::Request;
use crate::text::*;

/// The most bytes in a byte string.
pub const MOST_STRING: usize = 32;

/// The most digits of a limit.
pub const MOST_LIMIT_DIGITS: usize = 9;

/// The most digits of feet and of a step.
pub const MOST_FEET_DIGITS: usize = 7;

/// The most digits of a level.
pub const MOST_LEVEL_DIGITS: usize = 3;

/// A well-formed line.
#[derive(Debug, Clone, PartialEq, Eq)]
pub enum Call {
    Register(u32, bool),
    Bits(Vec<u8>),
    Bytes(Vec<u8>),
    Rows(Vec<u8>),
    Remainder(Vec<u8>),
    Address(Vec<u8>),
    Overlay(u32),
    Backward(u32),
    Reply(Vec<u8>, u32),
    Interrogation(Vec<u8>, u32),
    Transponder(Vec<u8>, u32),
    Sensor(Request),
    Altitude(Vec<u8>),
    /// The message, the altitude in feet and the step.
    Write(Vec<u8>, i32, u32),
    /// The own address, and what the upper and the lower antenna received.
    Antennas(u32, Received, Received),
}

/// What a call answers.
#[derive(Debug, Clone, PartialEq, Eq)]
pub enum Reply {
    Value(u32),
    Sealed(Vec<u8>),
    Own,
    AllCall,
    Broadcast,
    NotOurs(u32),
    /// The sensor's answer, which is no refusal, and the message after the call.
    Sensed(Answer, Vec<u8>),
    Said(Altitude),
    Written(Vec<u8>),
    /// The antenna and the part.
    Taken(Antenna, Vec<u8>),
    NoSuchField,
    Refused(u8),
}

/// What came of a line: nothing if it is malformed.
pub type Judged = Option<(Call, Reply)>;

fn byte_string(text: &[u8]) -> Option<Vec<u8>> {
    if text == b"-" {
        Some(Vec::new())
    } else {
        hex_bytes(text, MOST_STRING)
    }
}

fn word(text: &[u8]) -> Option<u32> {
    hex_number(text, 1, 8)
}

fn bit(text: &[u8]) -> Option<bool> {
    match text {
        b"0" => Some(false),
        b"1" => Some(true),
        _ => None,
    }
}

fn received(message: &[u8], level: &[u8]) -> Option<Received> {
    let level = u8::try_from(decimal_number(level, MOST_LEVEL_DIGITS)?).ok()?;
    Some(Received { message: byte_string(message)?, level })
}

/// Reads a line without its line feed; none if it is malformed.
pub fn read(line: &[u8]) -> Option<Call> {
    let columns: Vec<&[u8]> = line.split(|byte| *byte == b' ').collect();
    Some(match columns[..] {
        [b"register", a, b] => Call::Register(word(a)?, bit(b)?),
        [b"bits", a] => Call::Bits(byte_string(a)?),
        [b"bytes", a] => Call::Bytes(byte_string(a)?),
        [b"rows", a] => Call::Rows(byte_string(a)?),
        [b"remainder", a] => Call::Remainder(byte_string(a)?),
        [b"address", a] => Call::Address(byte_string(a)?),
        [b"overlay", a] => Call::Overlay(word(a)?),
        [b"backward", a] => Call::Backward(word(a)?),
        [b"reply", a, b] => Call::Reply(byte_string(a)?, word(b)?),
        [b"interrogation", a, b] => Call::Interrogation(byte_string(a)?, word(b)?),
        [b"transponder", a, b] => Call::Transponder(byte_string(a)?, word(b)?),
        [b"sensor", a, b, c, d] => Call::Sensor(Request {
            message: byte_string(a)?,
            confidence: byte_string(b)?,
            word: word(c)?,
            limit: decimal_number(d, MOST_LIMIT_DIGITS)?,
        }),
        [b"altitude", a] => Call::Altitude(byte_string(a)?),
        [b"write", a, b, c] => Call::Write(
            byte_string(a)?,
            signed_number(b, MOST_FEET_DIGITS)?,
            decimal_number(c, MOST_FEET_DIGITS)?,
        ),
        [b"antennas", a, b, c, d, e] => Call::Antennas(word(a)?, received(b, c)?, received(d, e)?),
        _ => return None,
    })
}

/// All rows of the table of refusals that apply to a call.
pub fn rows(call: &Call) -> Vec<u8> {
    match call {
        Call::Register(word, _) | Call::Overlay(word) | Call::Backward(word) => {
            rows_that_apply(&[(3, above_24_bits(*word))])
        }
        Call::Bits(field) | Call::Bytes(field) | Call::Rows(field) => {
            rows_that_apply(&[(1, wrong_field_length(field))])
        }
        Call::Remainder(message) | Call::Address(message) => {
            rows_that_apply(&[(1, wrong_message_length(message))])
        }
        Call::Reply(message, word) | Call::Interrogation(message, word) => {
            seal_rows(message, *word)
        }
        Call::Transponder(message, own) => transponder_rows(message, *own),
        Call::Sensor(Request { message, confidence, word, limit }) => {
            sensor_rows(message, confidence, *word, *limit)
        }
        Call::Altitude(message) => reading_rows(message),
        Call::Write(message, feet, step) => writing_rows(message, *feet, *step),
        Call::Antennas(own, ..) => antenna_rows(*own),
    }
}

/// The answer to a call.
pub fn answer(call: &Call) -> Reply {
    if let Some(row) = rows(call).first() {
        return Reply::Refused(*row);
    }
    match call {
        Call::Register(word, bit) => Reply::Value(register_step(*word, *bit)),
        Call::Bits(field) | Call::Bytes(field) | Call::Rows(field) => {
            Reply::Value(parity_of_bytes(field))
        }
        Call::Remainder(message) => Reply::Value(remainder_of_message(message)),
        Call::Address(message) => Reply::Value(address_read(message)),
        Call::Overlay(word) => Reply::Value(overlay(*word)),
        Call::Backward(word) => Reply::Value(step_back(*word)),
        Call::Reply(message, word) => sealed(reply_seal(message, *word)),
        Call::Interrogation(message, word) => sealed(interrogation_seal(message, *word)),
        Call::Transponder(message, own) => match transponder(message, *own) {
            Heard::Own => Reply::Own,
            Heard::AllCall => Reply::AllCall,
            Heard::Broadcast => Reply::Broadcast,
            Heard::NotOurs(address) => Reply::NotOurs(address),
            Heard::Refused(row) => Reply::Refused(row),
        },
        Call::Sensor(Request { message, confidence, word, limit }) => {
            let verdict = sense(message, confidence, *word, *limit);
            Reply::Sensed(verdict.answer, verdict.message)
        }
        Call::Altitude(message) => altitude::read(message).map_or(Reply::NoSuchField, Reply::Said),
        Call::Write(message, feet, step) => {
            altitude::write(message, *feet, *step).map_or(Reply::NoSuchField, Reply::Written)
        }
        Call::Antennas(own, upper, lower) => {
            let (antenna, part) = take(*own, upper, lower);
            Reply::Taken(antenna, part.to_vec())
        }
    }
}

fn sealed(result: Result<Vec<u8>, u8>) -> Reply {
    match result {
        Ok(message) => Reply::Sealed(message),
        Err(row) => Reply::Refused(row),
    }
}

/// Reads a line and makes the call.
pub fn judge(line: &[u8]) -> Judged {
    let call = read(line)?;
    let reply = answer(&call);
    Some((call, reply))
}

/// The value of the sensor's answer: the window, or window, bits and mark.
fn sensed_value(answer: Answer) -> String {
    match answer {
        Answer::Refused(row) => row.to_string(),
        Answer::Clean | Answer::NoFit => "-".to_string(),
        Answer::Dense { window } => window.to_string(),
        Answer::Corrected { window, ones, mark } => format!("{window},{ones},{}", mark.word()),
    }
}

fn altitude_columns(said: Altitude) -> String {
    match said {
        Altitude::Feet(feet) => format!("feet {feet} -"),
        Altitude::NoAltitude => "none - -".to_string(),
        Altitude::Metric => "metric - -".to_string(),
        Altitude::Illegal => "illegal - -".to_string(),
    }
}

/// The last column of a call that changed nothing: the message, where the call is
/// lent one to write in.
fn unchanged(call: &Call) -> String {
    match call {
        Call::Reply(message, _)
        | Call::Interrogation(message, _)
        | Call::Sensor(Request { message, .. })
        | Call::Write(message, ..) => hex_or_dash(message),
        _ => "-".to_string(),
    }
}

/// The output line for what came of line `number`.
pub fn print(number: usize, judged: &Judged) -> String {
    let Some((call, reply)) = judged else {
        return format!("{number} malformed - -\n");
    };
    let columns = match reply {
        Reply::Value(value) => format!("value {value:06X} -"),
        Reply::Sealed(message) => format!("sealed - {}", hex_or_dash(message)),
        Reply::Own => "own - -".to_string(),
        Reply::AllCall => "allcall - -".to_string(),
        Reply::Broadcast => "broadcast - -".to_string(),
        Reply::NotOurs(address) => format!("notours {address:06X} -"),
        Reply::Sensed(answer, message) => {
            format!("{} {} {}", answer.word(), sensed_value(*answer), hex_or_dash(message))
        }
        Reply::Said(altitude) => altitude_columns(*altitude),
        Reply::Written(message) => format!("written - {}", hex_or_dash(message)),
        Reply::Taken(antenna, part) => format!("{} - {}", antenna.word(), hex_or_dash(part)),
        Reply::NoSuchField => format!("nofield - {}", unchanged(call)),
        Reply::Refused(row) => format!("refused {row} {}", unchanged(call)),
    };
    format!("{number} {columns}\n")
}

/// The whole output for a whole input; `met` is shown each line's outcome.
pub fn output_and_show(input: &[u8], met: impl FnMut(usize, &Judged)) -> Vec<u8> {
    if input.len() > MOST_BYTES {
        return TOO_LONG.as_bytes().to_vec();
    }
    numbered(input, judge, print, met).into_bytes()
}

pub fn output(input: &[u8]) -> Vec<u8> {
    output_and_show(input, |_, _| ())
}

#[cfg(test)]
mod tests {
    use super::*;

    fn printed(line: &str) -> String {
        print(1, &judge(line.as_bytes()))
    }

    /// Document 01's values for the sensor, in the columns of `calls`.
    #[test]
    fn the_sensor_of_document_01() {
        for (arguments, columns) in [
            ("00000000EB2472 00008000000000 123456 24", "corrected 0,1,sole 00008000EB2472"),
            ("00000000EB2472 00008000000000 123456 0", "dense 0 00000000EB2472"),
            ("00000000EB2472 00004000000000 123456 000000024", "nofit - 00000000EB2472"),
            ("00008000EB2472 - 123456 24", "refused 2 00008000EB2472"),
            ("00008000EB2472 00000000000000 00123456 24", "clean - 00008000EB2472"),
            ("00008000EB2473 00000000000001 123456 24", "corrected 32,1,sole 00008000EB2472"),
            ("00000001000000 00000001FFF409 0 15", "corrected 8,1,several 00000000000000"),
            ("00000001000000 00000001FFF409 0 14", "dense 29 00000001000000"),
            ("00008000EB2472 00000000000000 123456 999999999", "refused 4 00008000EB2472"),
            ("00008000EB2472 00000000000000 1123456 25", "refused 3 00008000EB2472"),
            ("- 00 1000000 25", "refused 1 -"),
        ] {
            assert_eq!(printed(&format!("sensor {arguments}")), format!("1 {columns}\n"));
        }
    }

    #[test]
    fn altitudes() {
        for (line, columns) in [
            ("altitude 20000000000000", "none - -"),
            ("altitude 20000010000000", "feet -1000 -"),
            ("altitude 20000100000000", "feet -1200 -"),
            ("altitude 20000040ABCDEF", "metric - -"),
            ("altitude 20000001000000", "illegal - -"),
            ("altitude 28000010000000", "nofield - -"),
            ("altitude A000000000000000000000000000", "none - -"),
            ("altitude -", "refused 1 -"),
            ("altitude A0000000000000", "refused 5 -"),
            ("write 2000FFFFABCDEF -1000 25", "written - 2000E010ABCDEF"),
            ("write 2000FFFFABCDEF -0001200 0000100", "written - 2000E100ABCDEF"),
            ("write 20000000000000 -0 25", "written - 20000098000000"),
            ("write 28000000ABCDEF 0 25", "nofield - 28000000ABCDEF"),
            ("write 28000000ABCDEF 0 26", "refused 7 28000000ABCDEF"),
            ("write - 0 26", "refused 1 -"),
            ("write A0000000ABCDEF 1 25", "refused 5 A0000000ABCDEF"),
        ] {
            assert_eq!(printed(line), format!("1 {columns}\n"), "{line}");
        }
    }

    #[test]
    fn two_antennas() {
        for (arguments, columns) in [
            ("4840D6 20000000F01B9B 7 580000004A430A 8", "lower - 58000000"),
            ("4840D6 20000000F01B9B 008 580000004A430A 8", "upper - 20000000"),
            (
                "4840D6 00000000AAAC07 255 A0001838CA3E51F0A80000D8BFE3 0",
                "lower - A0001838CA3E51F0A80000",
            ),
            ("4840D6 - 255 A0000000F01B9B 255", "neither - -"),
            ("1000000 - 0 - 0", "refused 3 -"),
            ("0 20000000F01B9B 1 20000000F01B9B 0", "refused 6 -"),
            ("FFFFFF 580000004A430A 1 - 0", "refused 6 -"),
        ] {
            assert_eq!(printed(&format!("antennas {arguments}")), format!("1 {columns}\n"));
        }
    }

    #[test]
    fn columns_that_no_call_has() {
        for line in [
            "sensor 00000000EB2472 00008000000000 123456",
            "sensor 00000000EB2472 00008000000000 123456 24 24",
            "sensor 00000000EB2472 00008000000000 123456 0000000024",
            "sensor 00000000EB2472 00008000000000 123456 -",
            "sensor 00000000EB2472 00008000000000 - 24",
            "reply 00000000EB2472 00008000000000 123456 24",
            "bits",
            "bits ",
            "register 000000 2",
            "altitude 20000000000000 25",
            "altitude",
            "write 20000000000000 0",
            "write 20000000000000 0 25 0",
            "write 20000000000000 - 25",
            "write 20000000000000 --1 25",
            "write 20000000000000 +1 25",
            "write 20000000000000 00000000 25",
            "write 20000000000000 0 -25",
            "write 20000000000000 0 00000025",
            "antennas 4840D6 - 0 - 256",
            "antennas 4840D6 - 0000 - 0",
            "antennas 4840D6 - 0 - -",
            "antennas 4840D6 - 0 - 0 0",
            "antennas 4840D6 - 0 -",
            "antennas - - 0 - 0",
        ] {
            assert_eq!(printed(line), "1 malformed - -\n", "{line}");
        }
    }
}
