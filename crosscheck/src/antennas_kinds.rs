//! The kinds of lines `antennas` for `calls` that a run has to meet beside those
//! that every call has, and what kinds such a line is of.

use crate::antennas::*;
use crate::antennas_lines::*;
use crate::calls::{Reply, MOST_STRING};
use crate::rules::{transponder, unassigned, Heard};
use crate::sensor::windows;
use crate::tally::{Group, Tally};
use std::cmp::Ordering;

const PAIRS: &str = "antennas: by what the two buffers are to the transponder, and their levels";
const OWN_REFUSED: &str = "antennas: refused, by the own address";
const LENGTHS: &str = "antennas: by antenna and bytes";
const LEVELS: &str = "antennas: both taken, by the two levels";
const LEVEL_DIGITS: &str = "antennas: by antenna and digits of the level";
const PARTS: &str = "antennas: by antenna and bytes of the part";

/// The answers.
pub fn answers() -> Vec<String> {
    ["upper", "lower", "neither", "refused 3", "refused 6"]
        .map(|answer| format!("antennas {answer}"))
        .to_vec()
}

fn pair(upper: &str, lower: &str, order: Ordering) -> String {
    let levels = match order {
        Ordering::Less => "below",
        Ordering::Equal => "equal",
        Ordering::Greater => "above",
    };
    format!("{upper}, {lower}: {levels}")
}

/// Every pair for an own address that is not refused; and the pairs that rows 3
/// and 6 leave, with what a transponder would refuse for the buffer itself.
fn pairs() -> Vec<String> {
    let too_high = ["refused 1", "refused 3"];
    let reserved = ["refused 1", "refused 5", "refused 6"];
    let mut kinds = Vec::new();
    for sorts in [&SORTS[..], &too_high, &reserved] {
        for one in sorts {
            for other in sorts {
                kinds.extend(ORDERS.map(|order| pair(one, other, order)));
            }
        }
    }
    kinds.sort_unstable();
    kinds.dedup();
    kinds
}

/// Equal levels, and neighbours.
fn levels() -> Vec<String> {
    let equal = (0..=255).map(|level: u16| format!("{level}, {level}"));
    let next = (0..255).flat_map(|level: u16| {
        [format!("{level}, {}", level + 1), format!("{}, {level}", level + 1)]
    });
    equal.chain(next).collect()
}

fn hits() -> Vec<String> {
    let mut kinds = Vec::new();
    for antenna in ["upper", "lower"] {
        for n in [56, 112] {
            kinds.extend(windows(n).map(|window| format!("{antenna}, {n}: {window}")));
        }
    }
    kinds
}

fn of_each(items: impl Iterator<Item = usize> + Clone) -> Vec<String> {
    let with_items = |antenna| items.clone().map(move |item| format!("{antenna} {item}"));
    ["upper", "lower"].into_iter().flat_map(with_items).collect()
}

/// The groups that two antennas have beside those of all calls.
pub fn groups() -> Vec<Group> {
    let displaced = ["upper", "lower"]
        .iter()
        .flat_map(|antenna| [11, 20, 21].map(|format| format!("{antenna}, {format}")));
    vec![
        Group::summed(PAIRS, pairs()),
        Group::each(OWN_REFUSED, ["3", "6 for 000000", "6 for FFFFFF"]),
        Group::summed(LENGTHS, of_each(0..=MOST_STRING)),
        Group::summed(LEVELS, levels()),
        Group::each(LEVEL_DIGITS, of_each(1..=3)),
        Group::each(PARTS, of_each([4, 11].into_iter())),
        Group::summed(HIT, hits()),
        Group::each(DISPLACED, displaced),
        Group::each(MALFORMED, defects().iter().map(|defect| defect.0)),
    ]
}

/// What a buffer is to the transponder.
fn sort(message: &[u8], own: u32) -> String {
    match transponder(message, own) {
        Heard::Own => "own".to_string(),
        Heard::AllCall => "allcall".to_string(),
        Heard::Broadcast => "broadcast".to_string(),
        Heard::NotOurs(_) => "notours".to_string(),
        Heard::Refused(row) => format!("refused {row}"),
    }
}

/// Counts a line under the kinds that are the call's own.
pub fn count(tally: &mut Tally, line: &[u8], own: u32, both: [&Received; 2], reply: &Reply) {
    let [upper, lower] = both;
    let sorts = both.map(|received| sort(&received.message, own));
    tally.add(PAIRS, pair(&sorts[0], &sorts[1], upper.level.cmp(&lower.level)));
    let texts: Vec<&[u8]> = line.split(|byte| *byte == b' ').collect();
    for (antenna, received, digits) in [("upper", upper, texts[3]), ("lower", lower, texts[5])] {
        tally.add(LENGTHS, format!("{antenna} {}", received.message.len()));
        tally.add(LEVEL_DIGITS, format!("{antenna} {}", digits.len()));
    }
    match reply {
        Reply::Refused(row) if unassigned(own) => {
            tally.add(OWN_REFUSED, format!("{row} for {own:06X}"))
        }
        Reply::Refused(row) => tally.add(OWN_REFUSED, row),
        Reply::Taken(Antenna::Neither, _) => (),
        Reply::Taken(antenna, part) => {
            tally.add(PARTS, format!("{} {}", antenna.word(), part.len()))
        }
        _ => (),
    }
    if both.iter().all(|received| is_taken(&received.message, own)) {
        let (p, q) = (upper.level, lower.level);
        if p.abs_diff(q) <= 1 {
            tally.add(LEVELS, format!("{p}, {q}"));
        }
    }
}
