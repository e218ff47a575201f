//! The kinds of lines for `roster` that a run has to meet, and what kinds a line
//! is of.

use crate::blocks::{Aim, INPUTS, MALFORMED};
use crate::roster::{Grade, Line, Met, Record, Reply, GRADES, LONGEST};
use crate::roster_lines::*;
use crate::tally::{Group, Tally};

const ANSWERS: &str = "lines by their answer";
const TOGETHER: &str = "rows of the table of refusals that apply, alone or together";
const LENGTHS_ADDED: &str = "added, by the length of the table";
const FULL: &str = "refused 9, by the length of the table";
const REPLIES: &str = "replies about a live address, by time and grade";
const REMOVED: &str = "added after a removal, by time and grade";
const AT_THE_ENDS: &str = "found, at the ends of the range";

fn answers() -> Vec<&'static str> {
    vec![
        "table table",
        "count set",
        "place set",
        "place outside",
        "record set",
        "record outside",
        "clear cleared",
        "clear refused 8",
        "add added",
        "add renewed",
        "add held",
        "add refused 3",
        "add refused 8",
        "add refused 9",
        "remove removed",
        "remove absent",
        "remove refused 3",
        "remove refused 8",
        "find found",
        "find absent",
        "find refused 3",
        "find refused 8",
        "show shown",
        "malformed",
    ]
}

fn together() -> Vec<String> {
    let mut kinds: Vec<String> =
        ["3", "8", "9", "3, 8", "3, 9", "8, 9", "3, 8, 9"].map(|rows| format!("add {rows}")).into();
    for name in ["remove", "find"] {
        kinds.extend(["3", "8", "3, 8"].map(|rows| format!("{name} {rows}")));
    }
    kinds.push("clear 8".to_string());
    kinds
}

fn grade_name(grade: Grade) -> &'static str {
    match grade {
        Grade::Clean => "clean",
        Grade::Sole => "sole",
        Grade::Several => "several",
    }
}

/// How a reply compares with a record, and what it is answered.
fn compared(time: &str, grades: [Grade; 2], answer: &str) -> String {
    let [new, old] = grades.map(grade_name);
    format!("{time}, {new} after {old}: {answer}")
}

/// All ways that a reply can compare with the record held, by the words of Point 12.
fn replies() -> Vec<String> {
    let pairs = GRADES.into_iter().flat_map(|new| GRADES.map(|old| [new, old]));
    let answered = |grades: [Grade; 2]| {
        let better = ["clean sole", "clean several", "sole several"];
        let equal = if better.contains(&grades.map(grade_name).join(" ").as_str()) {
            "renewed"
        } else {
            "held"
        };
        TIMES.map(|(time, step)| {
            compared(time, grades, ["held", equal, "renewed"][(step + 1) as usize])
        })
    };
    pairs.flat_map(answered).collect()
}

/// A removed address stands by any time and any grade.
fn after_removals() -> Vec<String> {
    let pairs = GRADES.into_iter().flat_map(|new| GRADES.map(|old| [new, old]));
    pairs.map(|grades| compared(TIMES[0].0, grades, "added")).collect()
}

/// All groups, with the kinds that a run has to meet.
pub fn groups(special: &[&'static str]) -> Vec<Group> {
    let by_call = CALLS
        .into_iter()
        .flat_map(|call| damages().into_iter().map(move |damage| format!("{call}: {}", damage.0)));
    let twice = pairs().into_iter().map(|pair| pair.map(|damage| damage.0).join(", and "));
    let forms = WRONG_FORMS.iter().chain(&WRONG_NAMES).map(|form| form.escape_debug().to_string());
    let defects = line_defects().into_iter().map(|defect| defect.0.to_string());
    let ends = ["altitude -2147483648", "altitude 2147483647", "no altitude", "time 0"];
    let more = ["time 18446744073709551615", "address 000000", "address FFFFFF"];
    vec![
        Group::each(ANSWERS, answers()),
        Group::each(TOGETHER, together()),
        Group::summed(LENGTHS_ADDED, 1..=LONGEST),
        Group::each(FULL, FILLED),
        Group::each(REPLIES, replies()),
        Group::each(REMOVED, after_removals()),
        Group::each(AT_THE_ENDS, ends.into_iter().chain(more)),
        Group::each(DAMAGED, by_call),
        Group::summed(DAMAGED_TWICE, twice),
        Group::each(MENDED, CONTENTS.iter().map(|damage| damage.0)),
        Group::each(MALFORMED, defects.chain(forms)),
        Group::each(INPUTS, special),
    ]
}

fn name(line: &Line) -> &'static str {
    match line {
        Line::Table(..) => "table",
        Line::Count(_) => "count",
        Line::Place(..) => "place",
        Line::Record(..) => "record",
        Line::Clear => "clear",
        Line::Add(..) => "add",
        Line::Remove(_) => "remove",
        Line::Find(_) => "find",
        Line::Show => "show",
    }
}

/// Counts a line under its kinds.
pub fn count(tally: &mut Tally, met: Option<&Met>, aim: Option<&Aim>) {
    let answer = met.map_or("malformed", |met| met.reply.word());
    if let Some(aim) = aim {
        if aim.answer.is_none_or(|wanted| wanted == answer) {
            tally.add(aim.group, &aim.kind);
        }
    }
    let Some(met) = met else {
        tally.add(ANSWERS, answer);
        return;
    };
    let Met { line, reply, before } = met;
    let row = match reply {
        Reply::Refused(row) => format!(" {row}"),
        _ => String::new(),
    };
    tally.add(ANSWERS, format!("{} {answer}{row}", name(line)));
    let rows: Vec<String> = before.rows(line).iter().map(u8::to_string).collect();
    if !rows.is_empty() {
        tally.add(TOGETHER, format!("{} {}", name(line), rows.join(", ")));
    }
    match reply {
        Reply::Added => tally.add(LENGTHS_ADDED, before.records.len()),
        Reply::Refused(9) => tally.add(FULL, before.records.len()),
        Reply::Found(record) => count_found(tally, record),
        _ => (),
    }
    if let (Line::Add(new), Reply::Added | Reply::Renewed | Reply::Held) = (line, reply) {
        count_reply(tally, met.before_of(new.address), new, answer);
    }
}

/// Counts a reply by how it compares with the record that the address had.
fn count_reply(tally: &mut Tally, old: Option<&Record>, new: &Record, answer: &str) {
    let Some(old) = old else {
        return;
    };
    let time = TIMES[(new.time.cmp(&old.time) as i8 + 1) as usize].0;
    let kind = compared(time, [new.grade, old.grade], answer);
    if old.live {
        tally.add(REPLIES, kind);
    } else if time == TIMES[0].0 {
        tally.add(REMOVED, kind);
    }
}

fn count_found(tally: &mut Tally, record: &Record) {
    let Record { address, altitude, time, .. } = *record;
    match altitude {
        None => tally.add(AT_THE_ENDS, "no altitude"),
        Some(feet) if [i32::MIN, i32::MAX].contains(&feet) => {
            tally.add(AT_THE_ENDS, format!("altitude {feet}"));
        }
        _ => (),
    }
    if [0, u64::MAX].contains(&time) {
        tally.add(AT_THE_ENDS, format!("time {time}"));
    }
    if [0, 0xFF_FFFF].contains(&address) {
        tally.add(AT_THE_ENDS, format!("address {address:06X}"));
    }
}
