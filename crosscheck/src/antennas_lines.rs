//! Lines `antennas` for `calls`: once every level, and every window that a burst
//! can hit on either antenna; in every round every pair of what two buffers can be
//! with levels below, equal and above, all lengths, and malformed lines.

use crate::antennas::*;
use crate::blocks::Made;
use crate::calls::MOST_STRING;
use crate::calls_lines::*;
use crate::defects::*;
use crate::random::Random;
use crate::rules::*;
use crate::sensor::windows;
use std::cmp::Ordering;

/// The group of the malformed lines.
pub const MALFORMED: &str = "antennas: malformed lines";

/// The group of own interrogations hit by a burst, at the higher level, beside
/// an undamaged one.
pub const HIT: &str = "antennas: hit by a burst and not taken, by antenna, length and window";

/// The same where the burst made it an interrogation for all.
pub const DISPLACED: &str =
    "antennas: made one for all by a burst, and taken, by antenna and format";

/// What a buffer can be to a transponder whose own address no row refuses.
pub const SORTS: [&str; 6] = ["own", "allcall", "broadcast", "notours", "refused 1", "refused 5"];

/// The level of the upper beside that of the lower.
pub const ORDERS: [Ordering; 3] = [Ordering::Less, Ordering::Equal, Ordering::Greater];

/// A level in as few digits as it needs, or with zeros before it, up to three.
fn level_text(random: &mut Random, level: u8) -> Vec<u8> {
    let shortest = level.to_string().len();
    let width = random.from_to(shortest, 3);
    format!("{level:0width$}").into_bytes()
}

fn columns(random: &mut Random, own: u32, upper: &Received, lower: &Received) -> Vec<Column> {
    vec![
        name("antennas"),
        word(random, own),
        string(&upper.message),
        (Sort::Level, level_text(random, upper.level)),
        string(&lower.message),
        (Sort::Level, level_text(random, lower.level)),
    ]
}

fn text(random: &mut Random, own: u32, upper: &Received, lower: &Received) -> Vec<u8> {
    join(&columns(random, own, upper, lower))
}

/// A message of another length than 7 and 14.
fn wrong_length(random: &mut Random) -> Vec<u8> {
    loop {
        let length = random.from_to(0, MOST_STRING);
        if length != 7 && length != 14 {
            return random.bytes(length);
        }
    }
}

fn right_length(random: &mut Random) -> usize {
    *random.pick(&[7, 14])
}

/// An interrogation for another transponder, or for all in a format that is
/// neither of an all-call nor of a broadcast.
fn not_ours(random: &mut Random, own: u32) -> Vec<u8> {
    loop {
        let address = if random.one_in(2) { assigned(random) } else { HIGHEST };
        let length = right_length(random);
        let message = interrogation(random, length, address);
        if matches!(transponder(&message, own), Heard::NotOurs(_)) {
            return message;
        }
    }
}

/// A buffer of a sort.
fn buffer(random: &mut Random, own: u32, sort: &str) -> Vec<u8> {
    let length = right_length(random);
    match sort {
        "own" => interrogation(random, length, own),
        "allcall" => in_format(random, 11, HIGHEST),
        "broadcast" => {
            let format = *random.pick(&[20, 21]);
            in_format(random, format, HIGHEST)
        }
        "notours" => not_ours(random, own),
        "refused 1" => wrong_length(random),
        _ => {
            let mut bytes = interrogation(random, length, own);
            bytes[0] ^= 0x80;
            bytes
        }
    }
}

/// Two levels in this order, every second time next to each other.
fn levels(random: &mut Random, order: Ordering) -> (u8, u8) {
    let low = random.below(255) as u8;
    let high = if random.one_in(2) { low + 1 } else { random.from_to(low as usize + 1, 255) as u8 };
    match order {
        Ordering::Less => (low, high),
        Ordering::Equal => (high, high),
        Ordering::Greater => (high, low),
    }
}

fn received(message: Vec<u8>, level: u8) -> Received {
    Received { message, level }
}

/// Every pair of sorts, at levels of every order.
fn every_pair(random: &mut Random) -> Vec<Made> {
    let mut lines = Vec::new();
    for order in ORDERS {
        for one in SORTS {
            for other in SORTS {
                let own = assigned(random);
                let (p, q) = levels(random, order);
                let upper = received(buffer(random, own, one), p);
                let lower = received(buffer(random, own, other), q);
                lines.push(Made::plain(text(random, own, &upper, &lower)));
            }
        }
    }
    lines
}

/// An own address that is refused, beside buffers that are not, and beside such
/// as a transponder would refuse for themselves.
fn refused(random: &mut Random) -> Vec<Made> {
    let mut lines = Vec::new();
    for own in [word_above(random), 0, HIGHEST] {
        for order in ORDERS {
            for one in ["own", "refused 1", "refused 5"] {
                for other in ["own", "refused 1", "refused 5"] {
                    let (p, q) = levels(random, order);
                    let upper = received(buffer(random, own & HIGHEST, one), p);
                    let lower = received(buffer(random, own & HIGHEST, other), q);
                    lines.push(Made::plain(text(random, own, &upper, &lower)));
                }
            }
        }
    }
    lines
}

/// Every length on either antenna, beside an own interrogation.
fn all_lengths(random: &mut Random) -> Vec<Made> {
    let mut lines = Vec::new();
    for length in 0..=MOST_STRING {
        let own = assigned(random);
        let some = received(random.bytes(length), 255);
        let other = received(buffer(random, own, "own"), random.below(256) as u8);
        lines.push(Made::plain(text(random, own, &some, &other)));
        lines.push(Made::plain(text(random, own, &other, &some)));
    }
    lines
}

/// Both taken, at every level: the same, and each beside its neighbour.
fn every_level(random: &mut Random) -> Vec<Made> {
    let mut lines = Vec::new();
    for level in 0..=255 {
        let next = if level < 255 { level + 1 } else { level };
        for (p, q) in [(level, level), (level, next), (next, level)] {
            let own = assigned(random);
            let sorts = [0, 1].map(|_| *random.pick(&SORTS[..3]));
            let upper = received(buffer(random, own, sorts[0]), p);
            let lower = received(buffer(random, own, sorts[1]), q);
            lines.push(Made::plain(text(random, own, &upper, &lower)));
        }
    }
    lines
}

/// An interrogation that was hit, at a level not below that of an undamaged one
/// on the other antenna: first hit on the upper, then on the lower.
fn beside_undamaged(
    random: &mut Random,
    Hit { own, sent, hit }: &Hit,
) -> [(Received, Received); 2] {
    assert_eq!(transponder(sent, *own), Heard::Own);
    let (low, high) = levels(random, Ordering::Less);
    let damaged = received(hit.clone(), high);
    let undamaged = received(sent.clone(), low);
    [(damaged.clone(), undamaged.clone()), (undamaged, damaged)]
}

/// Bursts in a window that leave an interrogation for nobody here.
fn hit(random: &mut Random, length: usize, window: usize) -> Vec<Made> {
    let made = hit_in(random, length, window);
    let both = beside_undamaged(random, &made);
    let antennas = [("upper", Antenna::Lower), ("lower", Antenna::Upper)];
    let mut lines = Vec::new();
    for ((upper, lower), (hit_one, other)) in both.iter().zip(antennas) {
        if !is_taken(&made.hit, made.own) {
            assert_eq!(take(made.own, upper, lower).0, other, "it displaces nothing");
        }
        let line = text(random, made.own, upper, lower);
        let kind = format!("{hit_one}, {}: {window}", 8 * length);
        lines.push(Made::aimed(line, HIT, kind, Some(other.word())));
    }
    lines
}

/// Bursts that make an interrogation for all of it.
fn displaced(random: &mut Random, format: u8) -> Vec<Made> {
    let made = hit_to_all(random, format);
    let both = beside_undamaged(random, &made);
    let mut lines = Vec::new();
    for ((upper, lower), antenna) in both.iter().zip([Antenna::Upper, Antenna::Lower]) {
        let line = text(random, made.own, upper, lower);
        let kind = format!("{}, {format}", antenna.word());
        lines.push(Made::aimed(line, DISPLACED, kind, Some(antenna.word())));
    }
    lines
}

/// Every level, and every window of both lengths hit on either antenna.
pub fn all(random: &mut Random) -> Vec<Made> {
    let mut lines = every_level(random);
    for length in [7, 14] {
        lines.extend(windows(8 * length).flat_map(|window| hit(random, length, window)));
    }
    lines
}

/// A well-formed line that is not refused, as columns.
pub fn well_formed(random: &mut Random) -> Vec<Column> {
    let own = assigned(random);
    let [upper, lower] = [0, 1].map(|_| {
        let sort = *random.pick(&SORTS[..4]);
        received(buffer(random, own, sort), random.below(256) as u8)
    });
    columns(random, own, &upper, &lower)
}

/// Replaces the text of a column.
fn with(columns: &[Column], place: usize, text: &[u8]) -> Option<Vec<u8>> {
    let mut columns = columns.to_vec();
    columns[place].1 = text.to_vec();
    Some(join(&columns))
}

/// Replaces the text of one of the columns of a message, or of a level.
fn with_either(
    columns: &[Column],
    random: &mut Random,
    places: [usize; 2],
    text: &[u8],
) -> Option<Vec<u8>> {
    let place = *random.pick(&places);
    with(columns, place, text)
}

const MESSAGES: [usize; 2] = [2, 4];
const LEVELS: [usize; 2] = [3, 5];

/// Defects of the columns of two antennas.
const OF_ANTENNAS: [Defect; 21] = [
    ("name in capitals", |columns, _| with(columns, 0, b"ANTENNAS")),
    ("name cut short", |columns, _| with(columns, 0, b"antenna")),
    ("name with a letter more", |columns, _| with(columns, 0, b"antennass")),
    ("name of another call", |columns, random| {
        let other = *random.pick(&[&b"transponder"[..], b"sensor", b"write", b"bits", b"register"]);
        with(columns, 0, other)
    }),
    ("name alone", |_, _| Some(b"antennas".to_vec())),
    ("the own address alone", |columns, _| Some(join(&columns[..2]))),
    ("the lower buffer left out", |columns, _| Some(join(&columns[..4]))),
    ("the last level left out", |columns, _| Some(join(&columns[..5]))),
    ("own address of 9 digits", |columns, _| with(columns, 1, b"000000001")),
    ("own address a dash", |columns, _| with(columns, 1, b"-")),
    ("message of 33 bytes", |columns, random| with_either(columns, random, MESSAGES, &[b'0'; 66])),
    ("message of 65 digits", |columns, random| with_either(columns, random, MESSAGES, &[b'0'; 65])),
    ("message of one digit", |columns, random| with_either(columns, random, MESSAGES, b"0")),
    ("message of two dashes", |columns, random| with_either(columns, random, MESSAGES, b"--")),
    ("level 256", |columns, random| with_either(columns, random, LEVELS, b"256")),
    ("level 999", |columns, random| with_either(columns, random, LEVELS, b"999")),
    ("level of 4 digits", |columns, random| {
        let text = *random.pick(&[&b"0000"[..], b"0255", b"1000"]);
        with_either(columns, random, LEVELS, text)
    }),
    ("level 4294967296", |columns, random| with_either(columns, random, LEVELS, b"4294967296")),
    ("level with a hexadecimal digit", |columns, random| {
        let text = *random.pick(&[&b"A"[..], b"1F", b"FF"]);
        with_either(columns, random, LEVELS, text)
    }),
    ("level a dash", |columns, random| with_either(columns, random, LEVELS, b"-")),
    ("level not a whole number", |columns, random| with_either(columns, random, LEVELS, b"1.")),
];

/// All defects that lines of two antennas get.
pub fn defects() -> Vec<Defect> {
    [&OF_THE_LINE[..], &OF_A_NUMBER[..], &OF_ANTENNAS[..]].concat()
}

/// Lines of all recipes but those of `all`.
pub fn round(random: &mut Random) -> Vec<Made> {
    let mut lines = spoiled(random, MALFORMED, defects(), well_formed);
    lines.extend(every_pair(random));
    lines.extend(refused(random));
    lines.extend(all_lengths(random));
    lines.extend([11, 20, 21].into_iter().flat_map(|format| displaced(random, format)));
    lines
}

#[cfg(test)]
mod tests {
    use super::*;
    use crate::calls::{judge, read, Reply};

    #[test]
    fn every_defect_spoils_every_line() {
        let mut random = Random::new(41);
        for (name, spoil) in defects() {
            for _ in 0..50 {
                let columns = well_formed(&mut random);
                let line = spoil(&columns, &mut random).expect("such a column");
                assert_eq!(read(&line), None, "{name}: {}", line.escape_ascii());
            }
        }
    }

    #[test]
    fn well_formed_lines_are_answered() {
        let mut random = Random::new(42);
        for _ in 0..200 {
            let judged = judge(&join(&well_formed(&mut random)));
            assert!(matches!(judged, Some((_, Reply::Taken(..)))));
        }
    }

    /// Each sort is what the transponder would answer.
    #[test]
    fn buffers_of_every_sort() {
        let mut random = Random::new(43);
        for _ in 0..50 {
            for sort in SORTS {
                let own = assigned(&mut random);
                let heard = transponder(&buffer(&mut random, own, sort), own);
                let expected = match heard {
                    Heard::Own => "own",
                    Heard::AllCall => "allcall",
                    Heard::Broadcast => "broadcast",
                    Heard::NotOurs(_) => "notours",
                    Heard::Refused(1) => "refused 1",
                    Heard::Refused(_) => "refused 5",
                };
                assert_eq!(sort, expected);
            }
        }
    }
}
