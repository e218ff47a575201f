//! The kinds of lines for `elm` that a run has to meet, and what kinds a line is of.

use crate::blocks::{Aim, INPUTS, MALFORMED};
use crate::elm::{segment, Line, Machine, Met, Reply, Segment, PLACES};
use crate::elm_lines::{defects, HIT, WRONG_FORMS};
use crate::rules::{format_number, Heard};
use crate::sender_kinds;
use crate::sensor::windows;
use crate::tally::{Group, Tally};

const ANSWERS: &str = "lines by their answer";
const REFUSED_HELD: &str = "refused with segments held, by row";
const CONTROLS: &str = "own segments, by RC, NC and whether a message is opened";
const NUMBERS: &str = "own segments with RC 1 or 2, by the last number and NC";
const FORMATS: &str = "own, by format";
const COMPLETED: &str = "a message made whole, by its last number and the number heard last";
const COUNTS: &str = "segments held";
const AGAIN: &str = "a number heard again";
const UNCHANGED: &str = "nothing changed, with segments held";
const LENGTHS: &str = "messages by their length in bytes";

const ALL_ANSWERS: [&str; 14] = [
    "fresh",
    "own",
    "allcall",
    "broadcast",
    "notours",
    "malformed",
    "refused 1",
    "refused 3",
    "refused 5",
    "refused 6",
    "refused 10",
    "refused 11",
    "refused 12",
    "sent",
];

const ALL_AGAIN: [&str; 5] = [
    "RC 1 with other bytes",
    "RC 2 with other bytes",
    "RC 3 with other bytes",
    "RC 0, the same last number",
    "RC 0, another last number",
];

const ALL_UNCHANGED: [&str; 5] = ["allcall", "broadcast", "notours", "own, another format", "RC 3"];

fn state(before: &Machine) -> &'static str {
    if before.last.is_some() {
        "opened"
    } else {
        "unopened"
    }
}

fn controls() -> Vec<String> {
    let mut kinds = Vec::new();
    for rc in 0..4 {
        for nc in 0..PLACES {
            kinds.extend(["opened", "unopened"].map(|state| format!("RC {rc}, NC {nc}, {state}")));
        }
    }
    kinds
}

fn numbers() -> Vec<String> {
    let pairs = (1..PLACES).flat_map(|last| (0..PLACES).map(move |nc| (last, nc)));
    pairs.map(|(last, nc)| format!("last {last}, NC {nc}")).collect()
}

fn completed() -> Vec<String> {
    let pairs = (1..PLACES).flat_map(|last| (0..last).map(move |nc| (last, nc)));
    pairs.map(|(last, nc)| format!("last {last}, NC {nc}")).collect()
}

/// All groups, with the kinds that a run has to meet.
pub fn groups(special: &[&'static str]) -> Vec<Group> {
    let rows = ["1", "3", "5", "6", "10", "11"];
    let forms = WRONG_FORMS.iter().map(|form| form.escape_debug().to_string());
    let defects = defects().into_iter().map(|defect| defect.0.to_string());
    let digits = ["65 digits", "66 digits"].map(str::to_string);
    let own = vec![
        Group::each(ANSWERS, ALL_ANSWERS),
        Group::each(REFUSED_HELD, rows),
        Group::summed(CONTROLS, controls()),
        Group::summed(NUMBERS, numbers()),
        Group::summed(FORMATS, 0..32),
        Group::summed(COMPLETED, completed()),
        Group::summed(COUNTS, 0..=PLACES),
        Group::each(AGAIN, ALL_AGAIN),
        Group::each(UNCHANGED, ALL_UNCHANGED),
        Group::summed(HIT, windows(112)),
        Group::summed(LENGTHS, 0..=32),
        Group::each(MALFORMED, defects.chain(forms).chain(digits).chain(sender_kinds::malformed())),
        Group::each(INPUTS, special),
    ];
    own.into_iter().chain(sender_kinds::groups()).collect()
}

/// Counts a line under its kinds.
pub fn count(tally: &mut Tally, met: Option<&Met>, aim: Option<&Aim>) {
    let answer = met.map_or("malformed", |met| met.reply.word());
    let Some(Met { line, reply, before, after }) = met else {
        if let Some(aim) = aim {
            tally.add(aim.group, &aim.kind);
        }
        tally.add(ANSWERS, answer);
        return;
    };
    let has = !before.held.is_empty();
    if let Some(aim) = aim {
        let as_wanted = aim.answer.is_none_or(|wanted| wanted == answer);
        let hit = aim.group != HIT || has && before == after;
        if as_wanted && hit && sender_kinds::ended(aim.group, after) {
            tally.add(aim.group, &aim.kind);
        }
    }
    match reply {
        Reply::Refused(row) => {
            tally.add(ANSWERS, format!("refused {row}"));
            if has {
                tally.add(REFUSED_HELD, row);
            }
        }
        Reply::Unsent(row, _) => tally.add(ANSWERS, format!("refused {row}")),
        _ => tally.add(ANSWERS, answer),
    }
    if let Line::Send { call, address, data, room } = line {
        sender_kinds::count(tally, *call, *address, data, *room, reply);
    }
    let Line::Receive(_, message) = line else {
        return;
    };
    tally.add(LENGTHS, message.len());
    tally.add(COUNTS, after.held.len());
    if has && matches!(answer, "allcall" | "broadcast" | "notours") {
        tally.add(UNCHANGED, answer);
    }
    count_own(tally, message, reply, before, after);
}

/// The kinds of a message that is read as the own address.
fn count_own(tally: &mut Tally, message: &[u8], reply: &Reply, before: &Machine, after: &Machine) {
    let own = matches!(reply, Reply::Heard(Heard::Own, ..) | Reply::Refused(10 | 11));
    if !own {
        return;
    }
    tally.add(FORMATS, format_number(message));
    let Some(Segment { rc, nc, bytes }) = segment(message) else {
        if !before.held.is_empty() {
            tally.add(UNCHANGED, "own, another format");
        }
        return;
    };
    tally.add(CONTROLS, format!("RC {rc}, NC {nc}, {}", state(before)));
    if let (Some(last), 1 | 2) = (before.last, rc) {
        tally.add(NUMBERS, format!("last {last}, NC {nc}"));
    }
    if rc == 3 && !before.held.is_empty() {
        tally.add(UNCHANGED, "RC 3");
    }
    if !before.is_whole() && after.is_whole() {
        let last = after.last.expect("a whole message is opened");
        tally.add(COMPLETED, format!("last {last}, NC {nc}"));
    }
    match (rc, before.last) {
        (0, Some(last)) if nc == last => tally.add(AGAIN, "RC 0, the same last number"),
        (0, Some(_)) if nc > 0 => tally.add(AGAIN, "RC 0, another last number"),
        (1..=3, _) if before.held.get(&nc).is_some_and(|held| *held != bytes) => {
            tally.add(AGAIN, format!("RC {rc} with other bytes"));
        }
        _ => (),
    }
}
