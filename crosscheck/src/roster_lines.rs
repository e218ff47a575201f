//! Lines for `roster`: lists of calls on tables of every length, full tables,
//! tables damaged in every way that row 8 names, and malformed lines.

use crate::blocks::{Made, MALFORMED};
use crate::defects::{spoiled, Column, Defect, Sort, OF_THE_LINE};
use crate::random::Random;
use crate::roster::{Grade, Line, Record, Table, GRADES, LONGEST};

/// The groups of the lines that are made for something.
pub const DAMAGED: &str = "refused 8, by call and what is damaged";
pub const DAMAGED_TWICE: &str = "refused 8, by two things that are damaged";
pub const MENDED: &str = "cleared, by what was damaged";

/// The calls that row 8 can refuse for more than the lengths.
pub const CALLS: [&str; 3] = ["add", "remove", "find"];

/// Lengths of tables that are filled up.
pub const FILLED: [usize; 6] = [LONGEST, LONGEST - 1, 16, 3, 2, 1];

fn made(text: String) -> Made {
    Made::plain(text.into_bytes())
}

fn altitude_text(altitude: Option<i32>) -> String {
    altitude.map_or("-".to_string(), |feet| feet.to_string())
}

/// The text of a line.
pub fn text(line: &Line) -> String {
    match line {
        Line::Table(records, places) => format!("table {records} {places}"),
        Line::Count(count) => format!("count {count}"),
        Line::Place(index, place) => format!("place {index} {place}"),
        Line::Record(index, Record { live, address, altitude, time, grade }) => {
            let (mark, feet, grade) = (u8::from(*live), altitude_text(*altitude), grade.number());
            format!("record {index} {mark} {address:X} {feet} {time} {grade}")
        }
        Line::Clear => "clear".to_string(),
        Line::Add(Record { address, altitude, time, grade, .. }) => {
            format!("add {address:06X} {} {time} {}", altitude_text(*altitude), grade.number())
        }
        Line::Remove(word) => format!("remove {word:X}"),
        Line::Find(word) => format!("find {word:08X}"),
        Line::Show => "show".to_string(),
    }
}

fn any_altitude(random: &mut Random) -> Option<i32> {
    match random.below(6) {
        0 => None,
        1 => Some(*random.pick(&[i32::MIN, -1, 0, i32::MAX])),
        _ => Some(25 * random.below(2048) as i32 - 1000),
    }
}

fn any_time(random: &mut Random) -> u64 {
    match random.below(5) {
        0 => *random.pick(&[0, 1, u64::MAX - 1, u64::MAX]),
        1 => random.number(),
        2 => 1000 + random.below(3) as u64,
        _ => random.below(86_400_000) as u64,
    }
}

fn any_add(random: &mut Random, address: u32) -> Line {
    let (altitude, time) = (any_altitude(random), any_time(random));
    Line::Add(Record { live: true, address, altitude, time, grade: *random.pick(&GRADES) })
}

/// One of a few addresses, so that calls meet what others have added, the ends of
/// the range among them; now and then one that no address can be.
fn any_address(random: &mut Random, few: usize) -> u32 {
    match random.below(40) {
        0 => *random.pick(&[0x100_0000, 0xFFFF_FFFF]),
        1 => 0,
        2 => 0xFF_FFFF,
        _ => (random.below(few.max(1)) as u32).wrapping_mul(0x9E_3779) & 0xFF_FFFF,
    }
}

/// A call on a table of some length.
fn any_call(random: &mut Random, length: usize) -> Line {
    let address = any_address(random, length + length / 2 + 1);
    match random.below(12) {
        0..=5 => any_add(random, address),
        6 | 7 => Line::Remove(address),
        8..=10 => Line::Find(address),
        _ if random.one_in(30) => Line::Clear,
        _ if length <= 40 => Line::Show,
        _ => Line::Find(address),
    }
}

/// A well-formed line of any kind.
pub fn any_line(random: &mut Random) -> Vec<u8> {
    let record = Record {
        live: random.one_in(2),
        address: any_address(random, 20),
        altitude: any_altitude(random),
        time: any_time(random),
        grade: *random.pick(&GRADES),
    };
    let line = match random.below(12) {
        0 => Line::Table(random.from_to(0, 40), random.from_to(0, 40)),
        1 => Line::Count(random.below(20) as u64),
        2 => Line::Place(random.below(20) as u64, random.below(20) as u16),
        3 => Line::Record(random.below(20) as u64, record),
        _ => any_call(random, 16),
    };
    text(&line).into_bytes()
}

/// A list of calls on a table of its own.
fn calls_on(random: &mut Random, length: usize, count: usize) -> Vec<Made> {
    let mut lines = vec![made(text(&Line::Table(length, length)))];
    lines.extend((0..count).map(|_| made(text(&any_call(random, length)))));
    lines
}

/// A table of a length, filled with different addresses in any order, and one more.
fn filled(random: &mut Random, length: usize) -> Vec<Made> {
    let mut addresses: Vec<u32> = (0..=length as u32).map(|k| k * 16_000 % 0xFF_FFFF).collect();
    random.shuffle(&mut addresses);
    let mut lines = vec![made(text(&Line::Table(length, length)))];
    for address in addresses {
        lines.push(made(text(&any_add(random, address))));
    }
    lines.push(made(text(&any_add(random, 0x100_0000))));
    lines
}

/// Full tables first, so that each is in one input; then tables of every length that
/// a call takes, twice, since an input may end between a table and its calls.
pub fn all(random: &mut Random) -> Vec<Made> {
    let mut lines = Vec::new();
    for length in FILLED {
        lines.extend(filled(random, length));
    }
    for length in (1..=LONGEST).chain((1..=LONGEST).rev()) {
        lines.push(made(text(&Line::Table(length, length))));
        let addresses = [random.word(), random.word(), random.word()];
        for address in addresses {
            lines.push(made(text(&any_add(random, address))));
        }
        lines.extend(addresses.map(|address| made(text(&Line::Find(address)))));
        lines.push(made(text(&Line::Remove(addresses[0]))));
    }
    lines
}

/// A name, and what is done to a table that was right, with two live records at
/// least and two that are not, and may have been damaged otherwise.
pub type Damage = (&'static str, fn(&mut Table, &mut Random));

/// A place without a live record.
fn dead(table: &Table) -> usize {
    table.records.iter().position(|record| !record.live).expect("a record that is not live")
}

/// The places of the live records, by ascending address.
fn live(table: &Table) -> Vec<usize> {
    let mut live: Vec<usize> =
        (0..table.records.len()).filter(|place| table.records[*place].live).collect();
    live.sort_by_key(|place| table.records[*place].address);
    live
}

pub const LENGTHS: [Damage; 4] = [
    ("a place more than records", |table, _| table.places.push(0)),
    ("a record more than places", |table, _| table.records.push(Table::new(1, 0).records[0])),
    ("no records and no places", |table, _| *table = Table::new(0, 0)),
    ("one record and place too many", |table, _| {
        table.records.resize(LONGEST + 1, Table::new(1, 0).records[0]);
        table.places.resize(LONGEST + 1, 0);
    }),
];

pub const CONTENTS: [Damage; 10] = [
    ("the count above the length", |table, random| {
        let above = [table.records.len() as u64 + 1, u64::MAX, 65_536, 1 << 32];
        table.count = *random.pick(&above);
    }),
    ("a live address above FFFFFF", |table, _| {
        let last = *live(table).last().expect("a live record");
        table.records[last].address = 0x100_0000;
    }),
    ("a place past the end", |table, _| table.places[0] = table.records.len() as u16),
    ("a place of a record that is not live", |table, random| {
        let at = random.below(2);
        table.places[at] = dead(table) as u16;
    }),
    ("a live record that no place names", |table, random| {
        let place = dead(table);
        table.records[place].live = true;
        table.records[place].address = 0xFF_0000 + random.below(200) as u32;
    }),
    ("a record named twice", |table, _| table.places[1] = table.places[0]),
    ("two places exchanged", |table, _| table.places.swap(0, 1)),
    ("an address live twice", |table, _| {
        let live = live(table);
        table.records[live[1]].address = table.records[live[0]].address;
    }),
    ("the count one too low", |table, _| table.count -= 1),
    ("the count one too high", |table, _| table.count += 1),
];

/// All ways to damage a table.
pub fn damages() -> Vec<Damage> {
    [&LENGTHS[..], &CONTENTS].concat()
}

/// A table that is right, with two live records at least and two that are not.
fn right_table(random: &mut Random) -> Table {
    let length = random.from_to(4, 12);
    let mut table = Table::new(length, length);
    for _ in 0..random.from_to(2, length - 2) {
        let address = random.word() & 0xEF_FFFF;
        table.answer(&any_add(random, address));
    }
    if table.count < 2 {
        return right_table(random);
    }
    assert!(!table.is_damaged());
    table
}

/// The lines that make a table.
fn lines_of(table: &Table) -> Vec<Made> {
    let mut lines = vec![Line::Table(table.records.len(), table.places.len())];
    let blank = Table::new(1, 0).records[0];
    for (index, record) in table.records.iter().enumerate() {
        if *record != blank {
            lines.push(Line::Record(index as u64, *record));
        }
    }
    for (index, place) in table.places.iter().enumerate() {
        if *place != 0 {
            lines.push(Line::Place(index as u64, *place));
        }
    }
    lines.push(Line::Count(table.count));
    lines.iter().map(|line| made(text(line))).collect()
}

fn call_named(random: &mut Random, name: &str) -> Line {
    let address = random.word();
    match name {
        "add" => any_add(random, address),
        "remove" => Line::Remove(address),
        _ => Line::Find(address),
    }
}

/// A damaged table, and a call that has to notice.
fn damaged(random: &mut Random, how: &[Damage], call: &str, group: &'static str) -> Vec<Made> {
    let mut table = right_table(random);
    for damage in how {
        (damage.1)(&mut table, random);
    }
    assert!(table.is_damaged());
    let names: Vec<&str> = how.iter().map(|damage| damage.0).collect();
    let kind = match names[..] {
        [name] => format!("{call}: {name}"),
        _ => names.join(", and "),
    };
    let mut lines = lines_of(&table);
    let line = text(&call_named(random, call)).into_bytes();
    lines.push(Made::aimed(line, group, kind, Some("refused")));
    lines
}

/// Two things damaged that do not undo each other.
pub fn pairs() -> Vec<[Damage; 2]> {
    let mut pairs = Vec::new();
    for (index, first) in CONTENTS.iter().enumerate() {
        pairs.extend(CONTENTS[index + 1..].iter().map(|second| [*first, *second]));
        pairs.extend(LENGTHS[..2].iter().map(|second| [*first, *second]));
    }
    let undone = ["the count one too low", "the count one too high"];
    let above = "the count above the length";
    pairs.retain(|pair| {
        let names = pair.map(|damage| damage.0);
        names != undone && !(names[0] == above && undone.contains(&names[1]))
    });
    pairs
}

/// A damaged table of right lengths, cleared.
fn mended(random: &mut Random, damage: Damage) -> Vec<Made> {
    let mut table = right_table(random);
    (damage.1)(&mut table, random);
    let mut lines = lines_of(&table);
    lines.push(Made::aimed(b"clear".to_vec(), MENDED, damage.0, Some("cleared")));
    lines.push(made(text(&call_named(random, "add"))));
    lines.push(made("show".to_string()));
    lines
}

/// A row-8 and row-9 table at once: every record is live, and the list is wrong.
fn full_and_damaged(random: &mut Random) -> Vec<Made> {
    let mut lines = filled(random, 3);
    lines.push(made("place 0 3".to_string()));
    lines.push(made(text(&any_add(random, 0xFF_FFFF))));
    lines.push(made(text(&any_add(random, 0x100_0000))));
    lines
}

/// What came before, at the same time, and after.
pub const TIMES: [(&str, i64); 3] =
    [("an earlier time", -1), ("an equal time", 0), ("a later time", 1)];

fn add_of(random: &mut Random, address: u32, time: u64, grade: Grade) -> Made {
    let altitude = any_altitude(random);
    made(text(&Line::Add(Record { live: true, address, altitude, time, grade })))
}

/// Two replies about an address, by every order of their times and all grades: on a
/// live record, and on one that was removed. Then lists about one address of few
/// times, with other calls in between.
fn graded(random: &mut Random) -> Vec<Made> {
    let mut lines = Vec::new();
    for (_, step) in TIMES {
        for pair in GRADES.into_iter().flat_map(|first| GRADES.map(|second| [first, second])) {
            let (address, time) = (random.word(), 1 + random.below(86_400_000) as u64);
            let next = time.checked_add_signed(step).expect("a time");
            lines.push(made("table 2 2".to_string()));
            lines.push(add_of(random, address, time, pair[0]));
            lines.push(add_of(random, address, next, pair[1]));
            lines.push(made("show".to_string()));
            lines.push(made(text(&Line::Remove(address))));
            lines.push(add_of(random, address, time - 1, pair[1]));
            lines.push(made(text(&Line::Find(address))));
        }
    }
    for _ in 0..20 {
        let address = random.word();
        lines.push(made("table 4 4".to_string()));
        for _ in 0..random.from_to(2, 12) {
            let (time, grade) = (random.below(3) as u64, *random.pick(&GRADES));
            lines.push(add_of(random, address, time, grade));
            if random.one_in(3) {
                lines.push(made(text(&any_call(random, 4))));
            }
        }
        lines.push(made(text(&Line::Find(address))));
    }
    lines
}

/// Forms that no line has: each is one step from one that a line has.
pub const WRONG_FORMS: [&str; 43] = [
    "table 1025 1",
    "table 1 1025",
    "table 1",
    "table 1 1 1",
    "table -1 1",
    "count",
    "count 18446744073709551616",
    "count 000000000000000000000",
    "count -1",
    "count +1",
    "count 1A",
    "place 0 65536",
    "place 0 -1",
    "place 0",
    "record 0 2 0 - 0 0",
    "record 0 01 0 - 0 0",
    "record 0 1 0 2147483648 0 0",
    "record 0 1 0 -2147483649 0 0",
    "record 0 1 000000000 - 0 0",
    "record 0 1 0 - - 0",
    "record 0 1 0 -",
    "record 0 1 0 - 0",
    "record 0 1 0 - 0 3",
    "record 0 1 0 - 0 -",
    "record 0 1 0 - 0 0 0",
    "add 0 -- 0 0",
    "add 0 -0- 0 0",
    "add - - 0 0",
    "add a - 0 0",
    "add 0 - 18446744073709551616 0",
    "add 0 -",
    "add 0 - 0",
    "add 0 - 0 3",
    "add 0 - 0 00",
    "add 0 - 0 -1",
    "add 0 - 0 0 0",
    "add 0 - 0 A",
    "remove",
    "remove G",
    "find 100000000",
    "find -",
    "clear 0",
    "show 0",
];

/// Names that no line has.
pub const WRONG_NAMES: [&str; 5] = ["Clear", "shows", "sho", "clear\r", "addd 0 - 0 0"];

fn columns(random: &mut Random) -> Vec<Column> {
    let address = random.word();
    let line = text(&any_add(random, address));
    line.split(' ').map(|column| (Sort::Name, column.as_bytes().to_vec())).collect()
}

/// The defects of a line as a whole.
pub fn line_defects() -> Vec<Defect> {
    OF_THE_LINE.to_vec()
}

fn malformed(random: &mut Random) -> Vec<Made> {
    let mut lines = spoiled(random, MALFORMED, line_defects(), columns);
    for form in WRONG_FORMS.iter().chain(&WRONG_NAMES) {
        let text = form.as_bytes().to_vec();
        lines.push(Made::aimed(text, MALFORMED, form.escape_debug(), Some("malformed")));
    }
    lines
}

/// One round of lines.
pub fn round(random: &mut Random) -> Vec<Made> {
    let mut lines = Vec::new();
    for _ in 0..20 {
        let length = random.from_to(1, 24);
        lines.extend(calls_on(random, length, 60));
    }
    let length = random.from_to(25, LONGEST);
    lines.extend(calls_on(random, length, 60));
    for damage in damages() {
        for call in CALLS {
            lines.extend(damaged(random, &[damage], call, DAMAGED));
        }
    }
    for pair in pairs() {
        let call = *random.pick(&CALLS);
        lines.extend(damaged(random, &pair, call, DAMAGED_TWICE));
    }
    for damage in CONTENTS {
        lines.extend(mended(random, damage));
    }
    lines.extend(full_and_damaged(random));
    lines.extend(graded(random));
    for _ in 0..40 {
        lines.push(Made::plain(any_line(random)));
    }
    lines.extend(malformed(random));
    lines
}
