//! The kinds of lines for `calls` that a run has to meet, and what kinds a line
//! is of.

use crate::altitude::Altitude;
use crate::altitude_kinds;
use crate::antennas_kinds;
use crate::blocks::{Aim, INPUTS, MALFORMED};
use crate::calls::{rows, Call, Judged, Reply};
use crate::calls_lines::*;
use crate::rules::{address_read, format_number, HIGHEST};
use crate::sensor::{Answer, Mark};
use crate::sensor_kinds;
use crate::tally::{Group, Tally};

const ANSWERS: &str = "answers";
const TOGETHER: &str = "rows of the table of refusals that apply, alone or together";
const STRINGS: &str = "byte strings, by call and number of bytes";
const WORDS: &str = "words, by call and number of digits";
const SINGLE_BIT: &str = "fields with a single one, by call, length and bit";
const SINGLE_WORD: &str = "words with a single one, by call and power";
const LAST_BYTE: &str = "fields, by call and the value of the last byte";
const OTHERS: &str = "other cases";

const FOR_ALL: &str = "address FFFFFF, by format number and answer";
const FORMAT_OTHER_ADDRESS: &str =
    "format 11, 20 or 21 with an address other than FFFFFF, by answer";
const SEAL_LOWEST: &str = "sealed for 000000";
const SEAL_HIGHEST: &str = "sealed for FFFFFF";
const OWN_LOWEST: &str = "transponder refused 6 for 000000";
const OWN_HIGHEST: &str = "transponder refused 6 for FFFFFF";

fn answers() -> Vec<String> {
    let mut kinds: Vec<String> = Vec::new();
    for name in OF_A_WORD {
        kinds.extend([format!("{name} value"), format!("{name} refused 3")]);
    }
    for (names, lengths) in [(&OF_A_FIELD[..], [4, 11]), (&OF_A_MESSAGE[..], [7, 14])] {
        for name in names {
            kinds.extend(lengths.map(|bytes| format!("{name} value, {bytes} bytes")));
            kinds.push(format!("{name} refused 1"));
        }
    }
    for name in ["reply", "interrogation"] {
        kinds.extend([7, 14].map(|bytes| format!("{name} sealed, {bytes} bytes")));
        kinds.extend([1, 3, 5].map(|row| format!("{name} refused {row}")));
    }
    for answer in ["own, 7 bytes", "own, 14 bytes", "allcall, 7 bytes", "broadcast, 14 bytes"] {
        kinds.push(format!("transponder {answer}"));
    }
    kinds.extend([7, 14].map(|bytes| format!("transponder notours, {bytes} bytes")));
    kinds.extend([1, 3, 5, 6].map(|row| format!("transponder refused {row}")));
    for answer in ["clean", "dense", "nofit", "corrected sole", "corrected several"] {
        kinds.extend([7, 14].map(|bytes| format!("sensor {answer}, {bytes} bytes")));
    }
    kinds.extend([1, 2, 3, 4].map(|row| format!("sensor refused {row}")));
    kinds.extend(altitude_kinds::answers());
    kinds.extend(antennas_kinds::answers());
    kinds.push("malformed".to_string());
    kinds
}

/// Every set of rows that can meet in a call that more than one can refuse.
fn together() -> Vec<String> {
    let mut kinds = Vec::new();
    for name in ["reply", "interrogation"] {
        kinds.extend(["1", "3", "5", "1, 3", "3, 5"].map(|rows| format!("{name} {rows}")));
    }
    for rows in ["1", "3", "5", "6", "1, 3", "1, 6", "3, 5", "5, 6"] {
        kinds.push(format!("transponder {rows}"));
    }
    kinds.extend(sensor_kinds::sets_of_rows().iter().map(|rows| format!("sensor {rows}")));
    kinds.extend(altitude_kinds::sets_of_rows());
    kinds
}

fn pairs(names: &[&str], items: impl Iterator<Item = usize> + Clone) -> Vec<String> {
    let with_items = |name| items.clone().map(move |item| format!("{name} {item}"));
    names.iter().flat_map(with_items).collect()
}

fn single_bits() -> Vec<String> {
    let bits = |name: &str, length: usize| -> Vec<String> {
        (1..=8 * length).map(|bit| format!("{name} {length}: {bit}")).collect()
    };
    OF_A_FIELD.iter().flat_map(|name| [bits(name, 4), bits(name, 11)].concat()).collect()
}

fn hit_windows() -> Vec<String> {
    let windows = |n: usize| (0..=n - 24).map(move |window| format!("{n}: {window}"));
    [56, 112].into_iter().flat_map(windows).collect()
}

/// What FFFFFF is answered in each format.
fn for_all() -> Vec<String> {
    let answer = |format| match format {
        11 => "allcall",
        20 | 21 => "broadcast",
        _ => "notours",
    };
    (0..32).map(|format| format!("{format} {}", answer(format))).collect()
}

/// All groups, with the kinds that a run has to meet.
pub fn groups(special: &[&'static str]) -> Vec<Group> {
    let of_their_own = ["sensor", "altitude", "write"];
    let with_bytes = [&OF_A_FIELD[..], &OF_A_MESSAGE, &OF_BOTH, &of_their_own].concat();
    let with_words = [&OF_A_WORD[..], &OF_BOTH, &["sensor", "antennas"]].concat();
    let other_address =
        [11, 20, 21].map(|format| [format!("{format} own"), format!("{format} notours")]);
    let others = [SEAL_LOWEST, SEAL_HIGHEST, OWN_LOWEST, OWN_HIGHEST];
    let mut groups = vec![
        Group::each(ANSWERS, answers()),
        Group::each(TOGETHER, together()),
        Group::summed(HIT, hit_windows()),
        Group::each(HIT_FOR_ALL, [11, 20, 21]),
        Group::each(GENERATOR_ADDED, [56, 112]),
        Group::summed(FOR_ALL, for_all()),
        Group::each(FORMAT_OTHER_ADDRESS, other_address.concat()),
        Group::summed(STRINGS, pairs(&with_bytes, 0..=32)),
        Group::summed(WORDS, pairs(&with_words, 1..=8)),
        Group::summed(SINGLE_BIT, single_bits()),
        Group::summed(SINGLE_WORD, pairs(&OF_A_WORD, 0..24)),
        Group::summed(LAST_BYTE, pairs(&OF_A_FIELD, 0..256)),
        Group::each(OTHERS, others),
        Group::each(MALFORMED, defects().iter().map(|defect| defect.0)),
        Group::each(INPUTS, special),
    ];
    groups.extend(sensor_kinds::groups());
    groups.extend(altitude_kinds::groups());
    groups.extend(antennas_kinds::groups());
    groups
}

/// The call's name, its bytes and its word, as far as it has them.
fn parts(call: &Call) -> (&'static str, Option<&[u8]>, Option<u32>) {
    match call {
        Call::Register(word, _) => ("register", None, Some(*word)),
        Call::Bits(bytes) => ("bits", Some(bytes), None),
        Call::Bytes(bytes) => ("bytes", Some(bytes), None),
        Call::Rows(bytes) => ("rows", Some(bytes), None),
        Call::Remainder(bytes) => ("remainder", Some(bytes), None),
        Call::Address(bytes) => ("address", Some(bytes), None),
        Call::Overlay(word) => ("overlay", None, Some(*word)),
        Call::Backward(word) => ("backward", None, Some(*word)),
        Call::Reply(bytes, word) => ("reply", Some(bytes), Some(*word)),
        Call::Interrogation(bytes, word) => ("interrogation", Some(bytes), Some(*word)),
        Call::Transponder(bytes, word) => ("transponder", Some(bytes), Some(*word)),
        Call::Sensor(request) => ("sensor", Some(&request.message), Some(request.word)),
        Call::Altitude(bytes) => ("altitude", Some(bytes), None),
        Call::Write(bytes, ..) => ("write", Some(bytes), None),
        // two byte strings, which `antennas_kinds` counts
        Call::Antennas(own, ..) => ("antennas", None, Some(*own)),
    }
}

fn answer_word(judged: &Judged) -> &'static str {
    match judged {
        None => "malformed",
        Some((_, Reply::Value(_))) => "value",
        Some((_, Reply::Sealed(_))) => "sealed",
        Some((_, Reply::Own)) => "own",
        Some((_, Reply::AllCall)) => "allcall",
        Some((_, Reply::Broadcast)) => "broadcast",
        Some((_, Reply::NotOurs(_))) => "notours",
        Some((_, Reply::Sensed(Answer::Corrected { mark, .. }, _))) => match mark {
            Mark::Sole => "corrected sole",
            Mark::Several => "corrected several",
        },
        Some((_, Reply::Sensed(answer, _))) => answer.word(),
        Some((_, Reply::Said(Altitude::Feet(_)))) => "feet",
        Some((_, Reply::Said(Altitude::NoAltitude))) => "none",
        Some((_, Reply::Said(Altitude::Metric))) => "metric",
        Some((_, Reply::Said(Altitude::Illegal))) => "illegal",
        Some((_, Reply::Written(_))) => "written",
        Some((_, Reply::Taken(antenna, _))) => antenna.word(),
        Some((_, Reply::NoSuchField)) => "nofield",
        Some((_, Reply::Refused(_))) => "refused",
    }
}

/// Counts a line under all kinds that it is of.
pub fn count(tally: &mut Tally, line: &[u8], judged: &Judged, aim: Option<&Aim>) {
    let answer = answer_word(judged);
    if let Some(aim) = aim {
        if aim.answer.is_none_or(|aimed_at| aimed_at == answer) {
            tally.add(aim.group, &aim.kind);
        }
    }
    let Some((call, reply)) = judged else {
        tally.add(ANSWERS, answer);
        return;
    };
    let (name, bytes, word) = parts(call);
    let length = bytes.map_or(String::new(), |bytes| format!(", {} bytes", bytes.len()));
    match reply {
        Reply::Refused(row) => tally.add(ANSWERS, format!("{name} refused {row}")),
        _ => tally.add(ANSWERS, format!("{name} {answer}{length}")),
    }
    let rows: Vec<String> = rows(call).iter().map(u8::to_string).collect();
    let several = [&OF_BOTH[..], &["sensor", "altitude", "write"]].concat();
    if !rows.is_empty() && several.contains(&name) {
        tally.add(TOGETHER, format!("{name} {}", rows.join(", ")));
    }
    if let Some(bytes) = bytes {
        tally.add(STRINGS, format!("{name} {}", bytes.len()));
        count_field(tally, name, bytes, reply);
    }
    if let Some(word) = word {
        count_word(tally, name, line, word);
    }
    if let Call::Sensor(request) = call {
        sensor_kinds::count(tally, line, request, reply);
    }
    altitude_kinds::count(tally, line, call, reply);
    if let Call::Antennas(own, upper, lower) = call {
        antennas_kinds::count(tally, line, *own, [upper, lower], reply);
    }
    if let Call::Transponder(message, _) = call {
        count_heard(tally, message, reply, answer);
    }
    count_others(tally, call, reply);
}

fn count_field(tally: &mut Tally, name: &str, field: &[u8], reply: &Reply) {
    if !OF_A_FIELD.contains(&name) || matches!(reply, Reply::Refused(_)) {
        return;
    }
    tally.add(LAST_BYTE, format!("{name} {}", field[field.len() - 1]));
    let ones: u32 = field.iter().map(|byte| byte.count_ones()).sum();
    if ones == 1 {
        let zeros_before =
            crate::poly::bits_of_bytes(field).iter().take_while(|bit| !**bit).count();
        tally.add(SINGLE_BIT, format!("{name} {}: {}", field.len(), zeros_before + 1));
    }
}

fn count_word(tally: &mut Tally, name: &str, line: &[u8], word: u32) {
    let place = match name {
        "sensor" => 3,
        "antennas" => 1,
        _ if OF_A_WORD.contains(&name) => 1,
        _ => 2,
    };
    let text = line.split(|byte| *byte == b' ').nth(place).unwrap_or(b"");
    tally.add(WORDS, format!("{name} {}", text.len()));
    if OF_A_WORD.contains(&name) && word.is_power_of_two() && word <= HIGHEST {
        tally.add(SINGLE_WORD, format!("{name} {}", word.trailing_zeros()));
    }
}

fn count_heard(tally: &mut Tally, message: &[u8], reply: &Reply, answer: &str) {
    if matches!(reply, Reply::Refused(_)) {
        return;
    }
    let format = format_number(message);
    if address_read(message) == HIGHEST {
        tally.add(FOR_ALL, format!("{format} {answer}"));
    } else if [11, 20, 21].contains(&format) {
        tally.add(FORMAT_OTHER_ADDRESS, format!("{format} {answer}"));
    }
}

fn count_others(tally: &mut Tally, call: &Call, reply: &Reply) {
    match (call, reply) {
        (Call::Transponder(_, 0), Reply::Refused(6)) => tally.add(OTHERS, OWN_LOWEST),
        (Call::Transponder(..), Reply::Refused(6)) => tally.add(OTHERS, OWN_HIGHEST),
        (Call::Interrogation(_, 0), Reply::Sealed(_)) => tally.add(OTHERS, SEAL_LOWEST),
        (Call::Interrogation(_, HIGHEST), Reply::Sealed(_)) => tally.add(OTHERS, SEAL_HIGHEST),
        _ => (),
    }
}
