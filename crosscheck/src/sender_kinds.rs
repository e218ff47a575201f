//! The kinds of lines for the sender's calls that a run has to meet.

use crate::elm::{Machine, Reply, MOST_DATA, MOST_ROOM};
use crate::rules::HIGHEST;
use crate::sender::{waiting, Call, MOST, SEGMENT, TRANSMISSION};
use crate::sender_lines::{KEPT, WHOLE, WRONG_FORMS};
use crate::tally::{Group, Tally};

const CALLS: &str = "calls of the sender, by their answer";
const ROUNDS: &str = "rounds sent, by segments and s";
const WAITING: &str = "rounds sent, by segments and those not acknowledged";
const ONE: &str = "rounds sent for one segment, by segments and its number";
const SORTS: &str = "rounds sent";
const REASONS: &str = "row 12, for one reason alone";
const ADDRESSES: &str = "calls of the sender that are not refused, by address";
const DATA: &str = "messages to be sent, by their length in bytes";
const ROOMS: &str = "buffers lent to the sender, by their length in bytes";

const ALL_CALLS: [&str; 10] = [
    "open sent",
    "open refused 3",
    "open refused 12",
    "round sent",
    "round sent none",
    "round refused 3",
    "round refused 12",
    "exchange sent",
    "exchange refused 3",
    "exchange refused 12",
];

const ALL_SORTS: [&str; 7] = [
    "fewer than wait",
    "as many as wait",
    "starting over, ended whole",
    "starting over, ended within",
    "one passed over between two",
    "bits past the last set",
    "all bits past the last clear",
];

const ALL_REASONS: [&str; 16] = [
    "s 0",
    "s 17",
    "s above 17",
    "no bytes",
    "one segment",
    "17 segments",
    "18 segments",
    "a byte less than whole",
    "a byte more than whole",
    "other bytes",
    "no buffer",
    "a byte short",
    "a byte long",
    "a transmission short",
    "a transmission long",
    "a buffer for s, with all acknowledged",
];

fn sizes() -> Vec<String> {
    let pairs = (2..=MOST).flat_map(|count| (1..=MOST).map(move |s| (count, s)));
    pairs.map(|(count, s)| format!("{count} segments, s {s}")).collect()
}

fn numbered(below: fn(usize) -> usize) -> Vec<String> {
    let pairs = (2..=MOST).flat_map(move |count| (0..below(count)).map(move |k| (count, k)));
    pairs.map(|(count, k)| format!("{count} segments, {k}")).collect()
}

/// All groups, with the kinds that a run has to meet.
pub fn groups() -> Vec<Group> {
    vec![
        Group::each(CALLS, ALL_CALLS),
        Group::summed(ROUNDS, sizes()),
        Group::summed(WAITING, numbered(|count| count + 1)),
        Group::summed(ONE, numbered(|count| count)),
        Group::each(SORTS, ALL_SORTS),
        Group::each(REASONS, ALL_REASONS),
        Group::each(ADDRESSES, ["000000", "FFFFFF", "another"]),
        Group::summed(DATA, 0..=MOST_DATA),
        Group::summed(ROOMS, 0..=MOST_ROOM),
        Group::summed(WHOLE, sizes()),
        Group::summed(KEPT, sizes()),
    ]
}

/// The malformed lines that are the sender's.
pub fn malformed() -> Vec<String> {
    let forms = WRONG_FORMS.iter().map(|form| form.escape_debug().to_string());
    forms.chain(["361 digits", "362 digits"].map(str::to_string)).collect()
}

/// Whether a game ended as it was aimed.
pub fn ended(group: &str, after: &Machine) -> bool {
    match group {
        WHOLE => after.is_whole(),
        KEPT => after.last.is_some() && !after.is_whole(),
        _ => true,
    }
}

fn of_size(call: Call) -> Option<&'static str> {
    match call {
        Call::Round { s: 0, .. } => Some("s 0"),
        Call::Round { s: 17, .. } => Some("s 17"),
        Call::Round { s, .. } if s > 17 => Some("s above 17"),
        _ => None,
    }
}

fn of_message(data: &[u8]) -> Option<&'static str> {
    match (data.len() / SEGMENT, data.len() % SEGMENT) {
        (0, 0) => Some("no bytes"),
        (1, 0) => Some("one segment"),
        (17, 0) => Some("17 segments"),
        (18, 0) => Some("18 segments"),
        (2..=16, 0) => None,
        (1..=15, 9) => Some("a byte less than whole"),
        (2..=16, 1) => Some("a byte more than whole"),
        _ => Some("other bytes"),
    }
}

/// What is wrong with a buffer where nothing else is.
fn of_buffer(call: Call, data: &[u8], room: usize) -> Option<&'static str> {
    let right = call.numbers(data.len() / SEGMENT).len() * TRANSMISSION;
    let for_s = matches!(call, Call::Round { s, .. } if room == s * TRANSMISSION);
    if room == right {
        None
    } else if right == 0 && for_s {
        Some("a buffer for s, with all acknowledged")
    } else if room == 0 {
        Some("no buffer")
    } else if room + 1 == right {
        Some("a byte short")
    } else if room == right + 1 {
        Some("a byte long")
    } else if room + TRANSMISSION == right {
        Some("a transmission short")
    } else if room == right + TRANSMISSION {
        Some("a transmission long")
    } else {
        Some("another length")
    }
}

fn count_round(tally: &mut Tally, acknowledged: u32, s: usize, count: usize) {
    let left = waiting(acknowledged, count);
    tally.add(WAITING, format!("{count} segments, {}", left.len()));
    if left.is_empty() {
        return;
    }
    tally.add(ROUNDS, format!("{count} segments, s {s}"));
    if let [number] = left[..] {
        tally.add(ONE, format!("{count} segments, {number}"));
    }
    tally.add(
        SORTS,
        match s {
            _ if s < left.len() => "fewer than wait",
            _ if s == left.len() => "as many as wait",
            _ if s % left.len() == 0 => "starting over, ended whole",
            _ => "starting over, ended within",
        },
    );
    if left.windows(2).any(|pair| pair[0] + 1 < pair[1]) {
        tally.add(SORTS, "one passed over between two");
    }
    if count < MOST {
        let past = acknowledged & (0xFFFF >> count);
        let set = "bits past the last set";
        tally.add(SORTS, if past == 0 { "all bits past the last clear" } else { set });
    }
}

/// Counts a call of the sender under its kinds.
pub fn count(tally: &mut Tally, call: Call, address: u32, data: &[u8], room: usize, reply: &Reply) {
    tally.add(DATA, data.len());
    tally.add(ROOMS, room);
    match reply {
        Reply::Unsent(row, _) => {
            tally.add(CALLS, format!("{} refused {row}", call.word()));
            if *row == 12 {
                let others = [of_size(call), of_message(data)];
                let mut reasons: Vec<&str> = others.into_iter().flatten().collect();
                if reasons.is_empty() {
                    reasons.extend(of_buffer(call, data, room));
                }
                if let [reason] = reasons[..] {
                    tally.add(REASONS, reason);
                }
            }
        }
        Reply::Sent(sent, _) => {
            let none = if *sent == 0 { " none" } else { "" };
            tally.add(CALLS, format!("{} sent{none}", call.word()));
            tally.add(
                ADDRESSES,
                match address {
                    0 => "000000",
                    HIGHEST => "FFFFFF",
                    _ => "another",
                },
            );
            if let Call::Round { acknowledged, s } = call {
                count_round(tally, acknowledged, s, data.len() / SEGMENT);
            }
        }
        _ => (),
    }
}
