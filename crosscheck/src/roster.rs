//! What `roster` has to print for a whole input (document 02, Points 4, 12 and 14):
//! one roll-call table, and a line a call.
//!
//! The table is lent memory: records, places and a count, which lines can set to
//! anything. Where row 8 does not refuse it, a call is answered by a map from
//! addresses, and the list of places is the map's addresses in their order.

use crate::text::*;
use std::collections::BTreeMap;

/// The most records or places that a line can ask for.
pub const MOST_LENGTH: usize = 1024;

/// The longest table that a call takes.
pub const LONGEST: usize = 384;

const HIGHEST_ADDRESS: u32 = 0xFF_FFFF;

/// How a reply was received.
#[derive(Debug, Clone, Copy, PartialEq, Eq)]
pub enum Grade {
    Clean,
    Sole,
    Several,
}

pub const GRADES: [Grade; 3] = [Grade::Clean, Grade::Sole, Grade::Several];

impl Grade {
    pub fn number(self) -> u8 {
        match self {
            Grade::Clean => 0,
            Grade::Sole => 1,
            Grade::Several => 2,
        }
    }

    /// Clean is better than sole and several, and sole than several.
    pub fn is_better(self, other: Grade) -> bool {
        matches!(
            (self, other),
            (Grade::Clean, Grade::Sole | Grade::Several) | (Grade::Sole, Grade::Several)
        )
    }
}

#[derive(Debug, Clone, Copy, PartialEq, Eq)]
pub struct Record {
    pub live: bool,
    pub address: u32,
    /// In feet; none if it is missing.
    pub altitude: Option<i32>,
    /// In milliseconds.
    pub time: u64,
    pub grade: Grade,
}

impl Record {
    /// A later time beats an earlier one, and at equal times a better grade.
    pub fn beats(&self, other: &Record) -> bool {
        self.time > other.time || self.time == other.time && self.grade.is_better(other.grade)
    }
}

const BLANK: Record =
    Record { live: false, address: 0, altitude: None, time: 0, grade: Grade::Clean };

/// A well-formed line.
#[derive(Debug, Clone, PartialEq, Eq)]
pub enum Line {
    Table(usize, usize),
    Count(u64),
    Place(u64, u16),
    Record(u64, Record),
    Clear,
    /// The live record that is to stand.
    Add(Record),
    Remove(u32),
    Find(u32),
    Show,
}

/// What a line is answered.
#[derive(Debug, Clone, PartialEq, Eq)]
pub enum Reply {
    Table,
    Set,
    Outside,
    Cleared,
    Added,
    Renewed,
    Removed,
    Found(Record),
    Absent,
    Held,
    Refused(u8),
    Shown,
}

impl Reply {
    pub fn word(&self) -> &'static str {
        match self {
            Reply::Table => "table",
            Reply::Set => "set",
            Reply::Outside => "outside",
            Reply::Cleared => "cleared",
            Reply::Added => "added",
            Reply::Renewed => "renewed",
            Reply::Removed => "removed",
            Reply::Found(..) => "found",
            Reply::Absent => "absent",
            Reply::Held => "held",
            Reply::Refused(_) => "refused",
            Reply::Shown => "shown",
        }
    }
}

/// A number of one to twenty decimal digits that 64 bits hold.
fn number(text: &[u8]) -> Option<u64> {
    let decimal = text.iter().all(|digit| digit.is_ascii_digit());
    if !decimal || !(1..=20).contains(&text.len()) {
        return None;
    }
    String::from_utf8_lossy(text).parse().ok()
}

/// An altitude: `-` if it is missing, else a number of 32 bits with its sign.
fn altitude(text: &[u8]) -> Option<Option<i32>> {
    if text == b"-" {
        return Some(None);
    }
    let feet = match text.strip_prefix(b"-") {
        Some(digits) => -i128::from(number(digits)?),
        None => i128::from(number(text)?),
    };
    i32::try_from(feet).ok().map(Some)
}

fn address(text: &[u8]) -> Option<u32> {
    hex_number(text, 1, 8)
}

fn length(text: &[u8]) -> Option<usize> {
    let length = number(text)?;
    (length <= MOST_LENGTH as u64).then_some(length as usize)
}

fn live(text: &[u8]) -> Option<bool> {
    match text {
        b"0" => Some(false),
        b"1" => Some(true),
        _ => None,
    }
}

fn grade(text: &[u8]) -> Option<Grade> {
    match text {
        b"0" => Some(Grade::Clean),
        b"1" => Some(Grade::Sole),
        b"2" => Some(Grade::Several),
        _ => None,
    }
}

/// The columns of a record from its address on.
fn record(live: bool, [word, feet, time, mark]: [&[u8]; 4]) -> Option<Record> {
    Some(Record {
        live,
        address: address(word)?,
        altitude: altitude(feet)?,
        time: number(time)?,
        grade: grade(mark)?,
    })
}

/// Reads a line without its line feed; none if it is malformed.
pub fn read(line: &[u8]) -> Option<Line> {
    let columns: Vec<&[u8]> = line.split(|byte| *byte == b' ').collect();
    Some(match columns[..] {
        [b"table", records, places] => Line::Table(length(records)?, length(places)?),
        [b"count", count] => Line::Count(number(count)?),
        [b"place", index, place] => Line::Place(number(index)?, number(place)?.try_into().ok()?),
        [b"record", index, mark, word, feet, time, grade] => {
            Line::Record(number(index)?, record(live(mark)?, [word, feet, time, grade])?)
        }
        [b"clear"] => Line::Clear,
        [b"add", word, feet, time, grade] => Line::Add(record(true, [word, feet, time, grade])?),
        [b"remove", word] => Line::Remove(address(word)?),
        [b"find", word] => Line::Find(address(word)?),
        [b"show"] => Line::Show,
        _ => return None,
    })
}

/// The table between two lines.
#[derive(Debug, Clone, PartialEq, Eq)]
pub struct Table {
    pub records: Vec<Record>,
    pub places: Vec<u16>,
    pub count: u64,
}

impl Default for Table {
    fn default() -> Table {
        Table::new(16, 16)
    }
}

impl Table {
    pub fn new(records: usize, places: usize) -> Table {
        Table { records: vec![BLANK; records], places: vec![0; places], count: 0 }
    }

    /// The lengths differ, or lie outside 1 to the longest.
    fn wrong_lengths(&self) -> bool {
        self.records.len() != self.places.len() || !(1..=LONGEST).contains(&self.records.len())
    }

    /// The places of the live records, by ascending address.
    fn live_places(&self) -> Vec<usize> {
        let mut live: Vec<usize> =
            (0..self.records.len()).filter(|place| self.records[*place].live).collect();
        live.sort_by_key(|place| self.records[*place].address);
        live
    }

    /// The first places by the count name exactly the live records by strictly
    /// ascending address.
    fn list_is_right(&self) -> bool {
        let live = self.live_places();
        let addresses: Vec<u32> = live.iter().map(|place| self.records[*place].address).collect();
        let listed: Vec<usize> =
            self.places.iter().take(live.len()).map(|place| usize::from(*place)).collect();
        self.count == live.len() as u64
            && listed == live
            && addresses.windows(2).all(|pair| pair[0] < pair[1])
    }

    /// Row 8, of every call but clear.
    pub fn is_damaged(&self) -> bool {
        let too_high = |record: &Record| record.live && record.address > HIGHEST_ADDRESS;
        self.wrong_lengths()
            || self.count > self.records.len() as u64
            || self.records.iter().any(too_high)
            || !self.list_is_right()
    }

    fn all_live(&self) -> bool {
        self.records.iter().all(|record| record.live)
    }

    fn has(&self, address: u32) -> bool {
        self.records.iter().any(|record| record.live && record.address == address)
    }

    /// The rows of the table of refusals that apply to a line.
    pub fn rows(&self, line: &Line) -> Vec<u8> {
        let (word, full) = match line {
            Line::Clear => return if self.wrong_lengths() { vec![8] } else { Vec::new() },
            Line::Add(Record { address, .. }) => (*address, self.all_live() && !self.has(*address)),
            Line::Remove(word) | Line::Find(word) => (*word, false),
            _ => return Vec::new(),
        };
        let rows = [(3, word > HIGHEST_ADDRESS), (8, self.is_damaged()), (9, full)];
        rows.into_iter().filter(|row| row.1).map(|row| row.0).collect()
    }

    /// What is held, by address.
    fn map(&self) -> BTreeMap<u32, usize> {
        let live = |place: &usize| self.records[*place].live;
        let entry = |place: usize| (self.records[place].address, place);
        (0..self.records.len()).filter(live).map(entry).collect()
    }

    /// Lists the map's places in order; past them the list stays.
    fn list(&mut self, map: &BTreeMap<u32, usize>) {
        for (listed, place) in self.places.iter_mut().zip(map.values()) {
            *listed = *place as u16;
        }
        self.count = map.len() as u64;
    }

    fn add(&mut self, record: Record) -> Reply {
        let mut map = self.map();
        if let Some(place) = map.get(&record.address) {
            if !record.beats(&self.records[*place]) {
                return Reply::Held;
            }
            self.records[*place] = record;
            return Reply::Renewed;
        }
        let free = self.records.iter().position(|record| !record.live).expect("row 9");
        self.records[free] = record;
        map.insert(record.address, free);
        self.list(&map);
        Reply::Added
    }

    fn remove(&mut self, address: u32) -> Reply {
        let mut map = self.map();
        let Some(place) = map.remove(&address) else {
            return Reply::Absent;
        };
        self.records[place].live = false;
        self.list(&map);
        Reply::Removed
    }

    fn find(&self, address: u32) -> Reply {
        match self.map().get(&address) {
            Some(place) => Reply::Found(self.records[*place]),
            None => Reply::Absent,
        }
    }

    fn clear(&mut self) -> Reply {
        for record in &mut self.records {
            record.live = false;
        }
        self.count = 0;
        Reply::Cleared
    }

    /// Sets one of the items, if there is one at the index.
    fn set<T>(items: &mut [T], index: u64, item: T) -> Reply {
        match usize::try_from(index).ok().and_then(|index| items.get_mut(index)) {
            Some(known) => {
                *known = item;
                Reply::Set
            }
            None => Reply::Outside,
        }
    }

    /// Does what a line says, and answers it.
    pub fn answer(&mut self, line: &Line) -> Reply {
        if let Some(row) = self.rows(line).first() {
            return Reply::Refused(*row);
        }
        match line {
            Line::Table(records, places) => {
                *self = Table::new(*records, *places);
                Reply::Table
            }
            Line::Count(count) => {
                self.count = *count;
                Reply::Set
            }
            Line::Place(index, place) => Table::set(&mut self.places, *index, *place),
            Line::Record(index, record) => Table::set(&mut self.records, *index, *record),
            Line::Clear => self.clear(),
            Line::Add(record) => self.add(*record),
            Line::Remove(word) => self.remove(*word),
            Line::Find(word) => self.find(*word),
            Line::Show => Reply::Shown,
        }
    }
}

fn feet_or_dash(altitude: Option<i32>) -> String {
    altitude.map_or("-".to_string(), |feet| feet.to_string())
}

/// Texts parted by commas, `-` for none.
fn listed(texts: Vec<String>) -> String {
    if texts.is_empty() {
        "-".to_string()
    } else {
        texts.join(",")
    }
}

fn shown(record: &Record) -> String {
    let Record { live, address, altitude, time, grade } = record;
    let feet = feet_or_dash(*altitude);
    format!("{}:{address:06X}:{feet}:{time}:{}", u8::from(*live), grade.number())
}

/// What came of a line: nothing if it is malformed; else the line, the answer, and
/// the table before and after it.
pub struct Met {
    pub line: Line,
    pub reply: Reply,
    pub before: Table,
}

impl Met {
    /// The record of an address before the line: the live one, or else one that was
    /// removed.
    pub fn before_of(&self, address: u32) -> Option<&Record> {
        let its = || self.before.records.iter().filter(|record| record.address == address);
        its().find(|record| record.live).or_else(|| its().next())
    }
}

/// The output line for what came of line `number`; the table is the one after it.
fn print(number: usize, reply: Option<&Reply>, table: &Table) -> String {
    let Some(reply) = reply else {
        return format!("{number} malformed {}\n", table.count);
    };
    let more = match reply {
        Reply::Found(Record { altitude, time, grade, .. }) => {
            format!(" {} {time} {}", feet_or_dash(*altitude), grade.number())
        }
        Reply::Refused(row) => format!(" {row}"),
        Reply::Shown => {
            let places = table.places.iter().map(u16::to_string).collect();
            let records = table.records.iter().map(shown).collect();
            format!(" {} {}", listed(places), listed(records))
        }
        _ => String::new(),
    };
    format!("{number} {} {}{more}\n", reply.word(), table.count)
}

/// The whole output for a whole input; `met` is shown what came of each line, and
/// the table after it.
pub fn output_and_show(input: &[u8], mut met: impl FnMut(usize, Option<&Met>)) -> Vec<u8> {
    if input.len() > MOST_BYTES {
        return TOO_LONG.as_bytes().to_vec();
    }
    let mut table = Table::default();
    let mut output = String::new();
    for (index, line) in lines(input).into_iter().enumerate() {
        let judged = read(line).map(|line| {
            let before = table.clone();
            let reply = table.answer(&line);
            Met { line, reply, before }
        });
        met(index, judged.as_ref());
        output += &print(index + 1, judged.as_ref().map(|met| &met.reply), &table);
    }
    output.into_bytes()
}

pub fn output(input: &[u8]) -> Vec<u8> {
    output_and_show(input, |_, _| ())
}

#[cfg(test)]
mod tests {
    use super::*;

    fn printed(input: &str) -> String {
        String::from_utf8(output(input.as_bytes())).expect("text")
    }

    #[test]
    fn a_day() {
        let input = "table 2 2\nadd 4840D6 38000 1000 0\nadd 400000 - 2000 2\nadd 4840D6 -25 1500 1\n\
            add FFFFFF 0 0 0\nfind 4840D6\nfind 400000\nfind 0\nshow\nremove 400000\nshow\nremove 400000\n\
            clear\nshow\n";
        let expected = "1 table 0\n2 added 1\n3 added 2\n4 renewed 2\n5 refused 2 9\n\
            6 found 2 -25 1500 1\n7 found 2 - 2000 2\n8 absent 2\n\
            9 shown 2 1,0 1:4840D6:-25:1500:1,1:400000:-:2000:2\n10 removed 1\n\
            11 shown 1 0,0 1:4840D6:-25:1500:1,0:400000:-:2000:2\n12 absent 1\n13 cleared 0\n\
            14 shown 0 0,0 0:4840D6:-25:1500:1,0:400000:-:2000:2\n";
        assert_eq!(printed(input), expected);
    }

    #[test]
    fn which_reply_stands() {
        let input = "add 5 1 10 1\nadd 5 2 10 1\nadd 5 3 10 2\nfind 5\nadd 5 4 10 0\nadd 5 5 9 0\n\
            add 5 6 11 2\nfind 5\nremove 5\nadd 5 7 0 2\nfind 5\n";
        let expected = "1 added 1\n2 held 1\n3 held 1\n4 found 1 1 10 1\n5 renewed 1\n6 held 1\n\
            7 renewed 1\n8 found 1 6 11 2\n9 removed 0\n10 added 1\n11 found 1 7 0 2\n";
        assert_eq!(printed(input), expected);
    }

    /// Every list of up to four replies of two times, by the words of Point 12: the
    /// earliest in the list among those that nothing in the list beats.
    #[test]
    fn the_earliest_unbeaten_stands() {
        let mut replies = Vec::new();
        for (k, grade) in GRADES.into_iter().cycle().take(6).enumerate() {
            let (time, altitude) = (k as u64 / 3, None);
            replies.push(Record { live: true, address: 5, altitude, time, grade });
        }
        for length in 1..=4 {
            for number in 0..6usize.pow(length) {
                let mut table = Table::new(1, 1);
                let mut list = Vec::new();
                for k in 0..length {
                    let reply = replies[number / 6usize.pow(k) % 6];
                    list.push(Record { altitude: Some(k as i32), ..reply });
                    table.answer(&Line::Add(list[k as usize]));
                }
                let unbeaten = |reply: &&Record| !list.iter().any(|other| other.beats(reply));
                let stands = *list.iter().find(unbeaten).expect("one stands");
                assert_eq!(table.answer(&Line::Find(5)), Reply::Found(stands));
            }
        }
    }

    #[test]
    fn rows() {
        let refused = |setting: &str, call: &str, row: u8| {
            let input = format!("{setting}\n{call}\n");
            let last = printed(&input).lines().last().expect("a line").to_string();
            assert!(last.ends_with(&format!(" {row}")), "{setting}: {last}");
        };
        refused("table 0 0", "clear", 8);
        refused("table 385 385", "clear", 8);
        refused("table 385 385", "find 0", 8);
        refused("table 384 384", "find 1000000", 3);
        refused("table 2 3", "find 0", 8);
        refused("count 17", "find 0", 8);
        refused("count 1", "find 0", 8);
        refused("record 0 1 0 - 0 0", "find 0", 8);
        refused("record 0 1 1000000 - 0 0\ncount 1", "find 0", 8);
        refused("record 0 1 5 - 0 0\ncount 1\nplace 0 16", "find 0", 8);
        refused("count 1", "find 1000000", 3);
        refused("table 1 1\nadd 1 - 0 0", "add 1000000 - 0 0", 3);
        refused("table 1 1\nadd 1 - 0 0", "add 2 - 0 0", 9);
    }

    #[test]
    fn equal_addresses_are_not_ascending() {
        let input = "record 0 1 5 - 0 0\nrecord 1 1 5 - 0 0\nplace 1 1\ncount 2\nfind 5\n";
        assert!(printed(input).ends_with("5 refused 2 8\n"));
    }

    #[test]
    fn forms() {
        for line in [
            "table 1024 0",
            "count 18446744073709551615",
            "place 0 65535",
            "record 0 0 FFFFFFFF -2147483648 18446744073709551615 2",
            "add 0 2147483647 0 1",
            "find 00000000",
            "add 0 -0 00000000000000000000 0",
        ] {
            assert!(read(line.as_bytes()).is_some(), "{line}");
        }
        for line in [
            "",
            "table 1025 0",
            "table 1",
            "count 18446744073709551616",
            "count 000000000000000000000",
            "count -1",
            "place 0 65536",
            "record 0 2 0 - 0 0",
            "record 0 1 0 2147483648 0 0",
            "record 0 1 0 -2147483649 0 0",
            "add 0 -- 0 0",
            "add 000000000 - 0 0",
            "add a - 0 0",
            "add 0 - 0",
            "add 0 - 0 3",
            "add 0 - 0 00",
            "record 0 1 0 - 0",
            "find 0 ",
            "show 1",
            "Clear",
        ] {
            assert!(read(line.as_bytes()).is_none(), "{line}");
        }
    }

    #[test]
    fn shown_without_any() {
        assert_eq!(printed("table 0 0\nshow\nx\n"), "1 table 0\n2 shown 0 - -\n3 malformed 0\n");
        assert_eq!(printed(&"0".repeat(MOST_BYTES + 1)), "too long\n");
    }
}
