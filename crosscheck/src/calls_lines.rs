//! Lines for `calls`: every call on both lengths, every refusal alone and with
//! another, interrogations hit by a burst, and malformed lines. Those of the
//! sensor are made by `sensor_lines`, those of altitudes by `altitude_lines`, those
//! of two antennas by `antennas_lines`.

use crate::altitude_lines;
use crate::antennas_lines;
use crate::blocks::{Made, MALFORMED};
use crate::defects::*;
use crate::poly::*;
use crate::random::Random;
use crate::rules::*;
use crate::sensor::{invert, windows};
use crate::sensor_lines;
use crate::text::hex_or_dash;

/// The group of interrogations sealed for an address, hit by a burst, and given
/// to the transponder of that address.
pub const HIT: &str = "interrogation hit by a burst, by length and window";

/// The group of interrogations that G itself, 25 bits, has gone through: no
/// burst of 24, and not noticed.
pub const GENERATOR_ADDED: &str = "interrogation with the generator added, taken as own";

/// The group of interrogations sealed for an address that a burst has made
/// interrogations for all: own is all that demand 3 excludes.
pub const HIT_FOR_ALL: &str =
    "interrogation hit by a burst, taken as one for all, by format number";

/// The calls that take a field, a message, or a message and a word.
pub const OF_A_FIELD: [&str; 3] = ["bits", "bytes", "rows"];
pub const OF_A_MESSAGE: [&str; 2] = ["remainder", "address"];
pub const OF_BOTH: [&str; 3] = ["reply", "interrogation", "transponder"];

/// The calls that take a word alone (the register a bit too).
pub const OF_A_WORD: [&str; 3] = ["register", "overlay", "backward"];

/// A word in as few digits as it needs, or with zeros before it, up to eight.
fn word_text(random: &mut Random, word: u32) -> Vec<u8> {
    let shortest = format!("{word:X}");
    let width = random.from_to(shortest.len(), 8);
    format!("{word:0width$X}").into_bytes()
}

/// A word above 24 bits.
pub fn word_above(random: &mut Random) -> u32 {
    let above = random.number() as u32 | 1 << random.from_to(24, 31);
    *random.pick(&[above, above, 0x100_0000, u32::MAX])
}

/// A 24-bit word, at times a special one.
fn word_within(random: &mut Random) -> u32 {
    match random.below(8) {
        0 => *random.pick(&[0, 1, HIGHEST, HIGHEST - 1, 0x80_0000]),
        1 => 1 << random.below(24),
        2 => random.word() >> random.below(24),
        _ => random.word(),
    }
}

/// A word, one time in `every` above 24 bits.
fn any_word(random: &mut Random, every: usize) -> u32 {
    if random.one_in(every) {
        word_above(random)
    } else {
        word_within(random)
    }
}

pub fn name(text: &str) -> Column {
    (Sort::Name, text.as_bytes().to_vec())
}

pub fn string(bytes: &[u8]) -> Column {
    (Sort::Bytes, hex_or_dash(bytes).into_bytes())
}

pub fn word(random: &mut Random, value: u32) -> Column {
    (Sort::Word, word_text(random, value))
}

/// The columns of a call on these bytes and this word, as far as it takes them.
fn call(random: &mut Random, call: &str, bytes: &[u8], value: u32) -> Vec<Column> {
    let mut columns = vec![name(call)];
    if OF_A_WORD.contains(&call) {
        columns.push(word(random, value));
        if call == "register" {
            columns.push((Sort::Bit, random.pick(&[b"0", b"1"]).to_vec()));
        }
        return columns;
    }
    columns.push(string(bytes));
    if OF_BOTH.contains(&call) {
        columns.push(word(random, value));
    }
    columns
}

fn made(random: &mut Random, name: &str, bytes: &[u8], value: u32) -> Made {
    Made::plain(join(&call(random, name, bytes, value)))
}

/// A message of 7 or 14 bytes; its first bit is right but one time in eight.
fn message(random: &mut Random) -> Vec<u8> {
    let mut bytes = random.bytes(7);
    if random.one_in(2) {
        bytes = random.bytes(14);
    }
    let right = random.below(8) > 0;
    let first_bit = right == (bytes.len() == 14);
    bytes[0] = if first_bit { bytes[0] | 0x80 } else { bytes[0] & 0x7F };
    bytes
}

/// R three ways on one field.
fn three_ways(random: &mut Random, field: &[u8]) -> Vec<Made> {
    OF_A_FIELD.iter().map(|way| made(random, way, field, 0)).collect()
}

/// Fields of random bytes, and a field with a single one.
fn fields(random: &mut Random) -> Vec<Made> {
    let mut lines = Vec::new();
    for length in [4, 4, 11, 11] {
        let field = random.bytes(length);
        lines.extend(three_ways(random, &field));
        let mut single = vec![0; length];
        let bit = random.below(8 * length);
        single[bit / 8] = 0x80 >> (bit % 8);
        lines.extend(three_ways(random, &single));
    }
    lines
}

/// Every call that takes bytes, on a string of each length from 0 to 32.
fn all_lengths(random: &mut Random) -> Vec<Made> {
    let mut lines = Vec::new();
    for length in 0..=32 {
        let bytes = random.bytes(length);
        for name in OF_A_FIELD.iter().chain(&OF_A_MESSAGE).chain(&OF_BOTH) {
            let value = any_word(random, 4);
            lines.push(made(random, name, &bytes, value));
        }
    }
    lines
}

fn words(random: &mut Random) -> Vec<Made> {
    let mut lines = Vec::new();
    for name in OF_A_WORD {
        let value = any_word(random, 5);
        lines.push(made(random, name, &[], value));
    }
    lines
}

/// Messages of the right lengths, read and sealed; words above and first bits
/// against the length among them.
fn messages(random: &mut Random) -> Vec<Made> {
    let mut lines = Vec::new();
    for name in OF_A_MESSAGE.iter().chain(&OF_BOTH) {
        let bytes = message(random);
        let value = any_word(random, 6);
        lines.push(made(random, name, &bytes, value));
    }
    let bytes = message(random);
    let value = word_within(random);
    for name in OF_BOTH {
        lines.push(made(random, name, &bytes, value));
    }
    lines
}

/// An interrogation that is not refused, sealed for an address.
pub fn interrogation(random: &mut Random, length: usize, address: u32) -> Vec<u8> {
    let mut bytes = random.bytes(length);
    bytes[0] = if length == 14 { bytes[0] | 0x80 } else { bytes[0] & 0x7F };
    interrogation_seal(&bytes, address).expect("the first bit is right")
}

/// The same in a format, of the length that its first bit asks for.
pub fn in_format(random: &mut Random, format: u8, address: u32) -> Vec<u8> {
    let mut bytes = random.bytes(if format < 16 { 7 } else { 14 });
    bytes[0] = format << 3 | bytes[0] & 7;
    interrogation_seal(&bytes, address).expect("the first bit is right")
}

/// An address that a transponder may have.
pub fn assigned(random: &mut Random) -> u32 {
    loop {
        let address = word_within(random);
        if !unassigned(address) {
            return address;
        }
    }
}

/// Interrogations for the transponder itself, for another, and for all.
fn heard(random: &mut Random) -> Vec<Made> {
    let own = assigned(random);
    let other = assigned(random);
    let mut lines = Vec::new();
    for length in [7, 14] {
        for address in [own, own, other, HIGHEST, 0] {
            let sealed = interrogation(random, length, address);
            lines.push(made(random, "transponder", &sealed, own));
        }
        let reply = interrogation(random, length, own);
        let reply = reply_seal(&reply, own).expect("the first bit is right");
        lines.push(made(random, "transponder", &reply, own));
    }
    for format in 0..32 {
        for address in [HIGHEST, own] {
            let sealed = in_format(random, format, address);
            let owner = *random.pick(&[own, own, own, other, HIGHEST, 0, 0x100_0000]);
            lines.push(made(random, "transponder", &sealed, owner));
        }
    }
    lines
}

/// An interrogation sealed for an address, that address, and the interrogation
/// hit by a burst.
pub struct Hit {
    pub own: u32,
    pub sent: Vec<u8>,
    pub hit: Vec<u8>,
}

/// A burst in a window.
pub fn hit_in(random: &mut Random, length: usize, window: usize) -> Hit {
    let own = assigned(random);
    let sent = interrogation(random, length, own);
    let ones = random.from_to(1, DEGREE);
    let burst: Vec<usize> = random.choose(ones, DEGREE).iter().map(|k| window + 1 + k).collect();
    let hit = bytes_of_bits(&invert(&bits_of_bytes(&sent), &burst));
    assert_ne!(transponder(&hit, own), Heard::Own, "no such burst is taken as own");
    Hit { own, sent, hit }
}

/// The one burst of a window behind the format after which FFFFFF is read.
pub fn hit_to_all(random: &mut Random, format: u8) -> Hit {
    let own = assigned(random);
    let sent = in_format(random, format, own);
    let bits = bits_of_bytes(&sent);
    let last = bits.len() - DEGREE;
    let window = random.from_to(5, last);
    let pattern = (window..last).fold(overlay(own ^ HIGHEST), |pattern, _| step_back(pattern));
    let ones = bits_of_word(pattern, DEGREE);
    let burst: Vec<usize> = (0..DEGREE).filter(|k| ones[*k]).map(|k| window + 1 + k).collect();
    let hit = bytes_of_bits(&invert(&bits, &burst));
    Hit { own, sent, hit }
}

/// An interrogation hit in a window, given to the transponder of its address.
fn hit(random: &mut Random, length: usize, window: usize) -> Made {
    let Hit { own, hit, .. } = hit_in(random, length, window);
    let text = join(&call(random, "transponder", &hit, own));
    Made::aimed(text, HIT, format!("{}: {window}", 8 * length), None)
}

/// The same by a burst that makes it one for all.
fn hit_for_all(random: &mut Random, format: u8) -> Made {
    let Hit { own, hit, .. } = hit_to_all(random, format);
    let text = join(&call(random, "transponder", &hit, own));
    let answer = if format == 11 { "allcall" } else { "broadcast" };
    Made::aimed(text, HIT_FOR_ALL, format, Some(answer))
}

/// The same with G added, 25 bits: the one longer burst that is not noticed.
fn generator_added(random: &mut Random, length: usize) -> Made {
    let own = assigned(random);
    let sent = bits_of_bytes(&interrogation(random, length, own));
    let first = random.from_to(2, sent.len() - DEGREE);
    let places: Vec<usize> = (0..=DEGREE).filter(|k| generator()[*k]).map(|k| first + k).collect();
    let bytes = bytes_of_bits(&invert(&sent, &places));
    let text = join(&call(random, "transponder", &bytes, own));
    Made::aimed(text, GENERATOR_ADDED, 8 * length, Some("own"))
}

/// Every pair of rows that can meet in a seal or in the transponder.
fn refused_twice(random: &mut Random) -> Vec<Made> {
    let above = word_above(random);
    let length = *random.pick(&[0, 1, 6, 8, 13, 15, 32]);
    let wrong_length = random.bytes(length);
    let length = *random.pick(&[7, 14]);
    let mut wrong_bit = random.bytes(length);
    wrong_bit[0] = if wrong_bit.len() == 7 { wrong_bit[0] | 0x80 } else { wrong_bit[0] & 0x7F };
    let unassigned = *random.pick(&[0, HIGHEST]);
    let mut lines = Vec::new();
    for name in OF_BOTH {
        lines.push(made(random, name, &wrong_length, above));
        lines.push(made(random, name, &wrong_bit, above));
        lines.push(made(random, name, &wrong_length, unassigned));
        lines.push(made(random, name, &wrong_bit, unassigned));
        let right = message(random);
        lines.push(made(random, name, &right, unassigned));
    }
    lines
}

/// A well-formed line, as columns, that is not refused, of a call other than the
/// sensor's and those of altitudes and of two antennas.
fn well_formed(random: &mut Random) -> Vec<Column> {
    let all = [&OF_A_WORD[..], &OF_A_FIELD, &OF_A_MESSAGE, &OF_BOTH].concat();
    let name = *random.pick(&all);
    let value = assigned(random);
    let length = *random.pick(&[7, 14]);
    let mut bytes = interrogation(random, length, value);
    if OF_A_FIELD.contains(&name) {
        bytes.truncate(length - 3);
    }
    call(random, name, &bytes, value)
}

/// A well-formed line, one time in twelve of the sensor, one of an altitude and
/// one of two antennas.
pub fn any_line(random: &mut Random) -> Vec<u8> {
    match random.below(12) {
        0 => join(&sensor_lines::well_formed(random)),
        1 => join(&altitude_lines::well_formed(random)),
        2 => join(&antennas_lines::well_formed(random)),
        _ => join(&well_formed(random)),
    }
}

/// Replaces the first column of a sort by a text; none if there is no such one.
fn with(columns: &[Column], sort: Sort, text: &[u8]) -> Option<Vec<u8>> {
    let place = columns.iter().position(|column| column.0 == sort)?;
    let mut columns = columns.to_vec();
    columns[place].1 = text.to_vec();
    Some(join(&columns))
}

/// Edits the name of the call.
fn renamed(columns: &[Column], edit: impl Fn(&mut Vec<u8>)) -> Option<Vec<u8>> {
    let mut columns = columns.to_vec();
    edit(&mut columns[0].1);
    Some(join(&columns))
}

/// Defects of the columns of `calls`.
const OF_CALLS: [Defect; 18] = [
    ("name unknown", |columns, _| with(columns, Sort::Name, b"seal")),
    ("name in capitals", |columns, _| renamed(columns, |name| name.make_ascii_uppercase())),
    ("name with a capital", |columns, _| renamed(columns, |name| name[0] -= 32)),
    ("name cut short", |columns, _| renamed(columns, |name| name.truncate(name.len() - 1))),
    ("name with a letter more", |columns, _| renamed(columns, |name| name.push(b's'))),
    ("name alone", |columns, _| Some(columns[0].1.clone())),
    ("name and a space", |columns, _| Some([&columns[0].1[..], b" "].concat())),
    ("name of another call", |columns, _| {
        let other = if columns.len() == 2 { &b"reply"[..] } else { &b"bits"[..] };
        with(columns, Sort::Name, other)
    }),
    ("byte string of 33 bytes", |columns, _| with(columns, Sort::Bytes, &[b'0'; 66])),
    ("byte string of 65 digits", |columns, _| with(columns, Sort::Bytes, &[b'0'; 65])),
    ("byte string of one digit", |columns, _| with(columns, Sort::Bytes, b"0")),
    ("byte string of two dashes", |columns, _| with(columns, Sort::Bytes, b"--")),
    ("word of 9 digits", |columns, _| with(columns, Sort::Word, b"000000001")),
    ("word a dash", |columns, _| with(columns, Sort::Word, b"-")),
    ("word of 40 digits", |columns, _| with(columns, Sort::Word, &[b'1'; 40])),
    ("bit 2", |columns, _| with(columns, Sort::Bit, b"2")),
    ("bit of two digits", |columns, random| {
        let text = *random.pick(&[b"00", b"01", b"10", b"11"]);
        with(columns, Sort::Bit, text)
    }),
    ("bit a dash", |columns, _| with(columns, Sort::Bit, b"-")),
];

/// All defects that lines for `calls` get.
pub fn defects() -> Vec<Defect> {
    [&OF_THE_LINE[..], &OF_A_NUMBER[..], &OF_CALLS[..]].concat()
}

/// Lines of all recipes, every window once, in a random order.
pub fn round(random: &mut Random) -> Vec<Made> {
    let mut lines = spoiled(random, MALFORMED, defects(), well_formed);
    lines.extend(all_lengths(random));
    lines.extend(sensor_lines::round(random));
    lines.extend(altitude_lines::round(random));
    lines.extend(antennas_lines::round(random));
    for length in [7, 14] {
        lines.extend(windows(8 * length).map(|window| hit(random, length, window)));
        lines.push(generator_added(random, length));
    }
    lines.extend([11, 20, 21].map(|format| hit_for_all(random, format)));
    for _ in 0..6 {
        lines.extend(fields(random));
        lines.extend(messages(random));
        lines.extend(heard(random));
        lines.extend((0..5).flat_map(|_| words(random)));
    }
    lines.extend(refused_twice(random));
    for _ in 0..50 {
        let line = any_line(random);
        lines.push(Made::plain(mutated(&line, random)));
        lines.push(Made::plain(line));
    }
    random.shuffle(&mut lines);
    lines
}

#[cfg(test)]
mod tests {
    use super::*;
    use crate::calls::{judge, read, Reply};

    /// Where a call has a column that can be so spoiled.
    #[test]
    fn every_defect_spoils_every_line() {
        let mut random = Random::new(23);
        for _ in 0..200 {
            for (name, spoil) in defects() {
                let columns = well_formed(&mut random);
                if let Some(line) = spoil(&columns, &mut random) {
                    assert_eq!(read(&line), None, "{name}: {}", line.escape_ascii());
                }
            }
        }
    }

    #[test]
    fn well_formed_lines_are_not_refused() {
        let mut random = Random::new(24);
        for _ in 0..500 {
            let judged = judge(&any_line(&mut random));
            assert!(!matches!(judged, None | Some((_, Reply::Refused(_)))));
        }
    }
}
