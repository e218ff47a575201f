//! Ways to spoil a well-formed line. Each makes one thing wrong and leaves the
//! rest, so that a program that overlooks that one thing is found out.

use crate::blocks::Made;
use crate::random::Random;

/// What a column of a line holds.
#[derive(Clone, Copy, PartialEq, Eq, Debug)]
pub enum Sort {
    /// The name of a call.
    Name,
    /// Bytes in hexadecimal digits.
    Bytes,
    /// A word in hexadecimal digits.
    Word,
    /// The density limit, decimal.
    Limit,
    /// A bit.
    Bit,
    /// An altitude in feet, decimal, with or without a sign.
    Feet,
    /// The step of an altitude code, decimal.
    Step,
    /// The level of an antenna, decimal.
    Level,
}

/// A column: what it holds, and its text.
pub type Column = (Sort, Vec<u8>);

/// A name, and the maker of the spoiled line; none where the columns at hand
/// cannot be spoiled so.
pub type Defect = (&'static str, fn(&[Column], &mut Random) -> Option<Vec<u8>>);

/// A line of each defect that the columns of a well-formed line can have, aimed
/// at a kind of the group.
pub fn spoiled<C: AsRef<[Column]>>(
    random: &mut Random,
    group: &'static str,
    defects: Vec<Defect>,
    well_formed: fn(&mut Random) -> C,
) -> Vec<Made> {
    let mut made = Vec::new();
    for (name, spoil) in defects {
        let columns = well_formed(random);
        let text = spoil(columns.as_ref(), random);
        made.extend(text.map(|text| Made::aimed(text, group, name, Some("malformed"))));
    }
    made
}

/// The columns parted by one space.
pub fn join(columns: &[Column]) -> Vec<u8> {
    let texts: Vec<&[u8]> = columns.iter().map(|column| &column.1[..]).collect();
    texts.join(&b' ')
}

/// Spoils one column of the given sort, chosen at random.
fn in_column(
    columns: &[Column],
    random: &mut Random,
    sorts: &[Sort],
    spoil: impl Fn(&mut Vec<u8>, &mut Random),
) -> Option<Vec<u8>> {
    let fitting: Vec<usize> =
        (0..columns.len()).filter(|k| sorts.contains(&columns[*k].0)).collect();
    if fitting.is_empty() {
        return None;
    }
    let mut columns = columns.to_vec();
    let chosen = *random.pick(&fitting);
    spoil(&mut columns[chosen].1, random);
    Some(join(&columns))
}

const HEX: [Sort; 2] = [Sort::Bytes, Sort::Word];
const UNSIGNED: [Sort; 6] =
    [Sort::Bytes, Sort::Word, Sort::Limit, Sort::Bit, Sort::Step, Sort::Level];
const NUMBERS: [Sort; 7] =
    [Sort::Bytes, Sort::Word, Sort::Limit, Sort::Bit, Sort::Step, Sort::Level, Sort::Feet];

/// Puts one of these bytes in place of a random one.
fn replace(text: &mut [u8], random: &mut Random, by: &[u8]) {
    let place = random.below(text.len());
    text[place] = *random.pick(by);
}

/// Puts a byte at a random place of the line, the ends included.
fn inserted(columns: &[Column], random: &mut Random, byte: u8) -> Option<Vec<u8>> {
    let mut line = join(columns);
    let place = random.from_to(0, line.len());
    line.insert(place, byte);
    Some(line)
}

/// Puts bytes in place of a random space.
fn for_a_space(columns: &[Column], random: &mut Random, by: &[u8]) -> Option<Vec<u8>> {
    let mut line = join(columns);
    let spaces: Vec<usize> = (0..line.len()).filter(|k| line[*k] == b' ').collect();
    let place = *random.pick(&spaces);
    line.splice(place..=place, by.iter().copied());
    Some(line)
}

fn with_ends(columns: &[Column], before: &[u8], after: &[u8]) -> Option<Vec<u8>> {
    Some([before, &join(columns), after].concat())
}

/// Defects of the line as a whole.
pub const OF_THE_LINE: [Defect; 22] = [
    ("empty line", |_, _| Some(Vec::new())),
    ("spaces alone", |columns, _| Some(vec![b' '; columns.len() - 1])),
    ("leading space", |columns, _| with_ends(columns, b" ", b"")),
    ("trailing space", |columns, _| with_ends(columns, b"", b" ")),
    ("two spaces", |columns, random| for_a_space(columns, random, b"  ")),
    ("tab for a space", |columns, random| for_a_space(columns, random, b"\t")),
    ("tab beside a space", |columns, random| for_a_space(columns, random, b" \t")),
    ("trailing tab", |columns, _| with_ends(columns, b"", b"\t")),
    ("comma for a space", |columns, random| for_a_space(columns, random, b",")),
    ("no space", |columns, random| for_a_space(columns, random, b"")),
    ("no-break space for a space", |columns, random| for_a_space(columns, random, b"\xC2\xA0")),
    ("carriage return at the end", |columns, _| with_ends(columns, b"", b"\r")),
    ("carriage return for a space", |columns, random| for_a_space(columns, random, b"\r")),
    ("form feed or vertical tab", |columns, random| {
        let byte = *random.pick(b"\x0B\x0C");
        inserted(columns, random, byte)
    }),
    ("NUL at the end", |columns, _| with_ends(columns, b"", b"\0")),
    ("NUL somewhere", |columns, random| inserted(columns, random, 0)),
    ("byte above 127 somewhere", |columns, random| {
        let byte = random.from_to(128, 255) as u8;
        inserted(columns, random, byte)
    }),
    ("byte order mark", |columns, _| with_ends(columns, b"\xEF\xBB\xBF", b"")),
    ("a column missing", |columns, random| {
        let mut columns = columns.to_vec();
        columns.remove(random.below(columns.len()));
        Some(join(&columns))
    }),
    ("a column more", |columns, _| with_ends(columns, b"", b" 00")),
    ("a column twice", |columns, random| {
        let mut columns = columns.to_vec();
        let place = random.below(columns.len());
        columns.insert(place, columns[place].clone());
        Some(join(&columns))
    }),
    ("a column emptied", |columns, random| {
        let mut columns = columns.to_vec();
        let place = random.below(columns.len());
        columns[place].1.clear();
        Some(join(&columns))
    }),
];

/// Defects of a column of digits.
pub const OF_A_NUMBER: [Defect; 9] = [
    ("lower-case digit", |columns, random| {
        in_column(columns, random, &HEX, |text, random| replace(text, random, b"abcdef"))
    }),
    ("letter that is no digit", |columns, random| {
        let letters = b"GHIJKLMNOPQRSTUVWXYZ";
        in_column(columns, random, &HEX, |text, random| replace(text, random, letters))
    }),
    ("neighbour of the digits", |columns, random| {
        in_column(columns, random, &NUMBERS, |text, random| replace(text, random, b"/:@G`g"))
    }),
    ("digit with the top bit set", |columns, random| {
        in_column(columns, random, &NUMBERS, |text, random| {
            let place = random.below(text.len());
            text[place] |= 0x80;
        })
    }),
    ("sign before a number", |columns, random| {
        in_column(columns, random, &UNSIGNED, |text, random| text.insert(0, *random.pick(b"+-")))
    }),
    ("0x before a number", |columns, random| {
        in_column(columns, random, &HEX, |text, _| drop(text.splice(0..0, *b"0x")))
    }),
    ("a digit too few in a byte string", |columns, random| {
        in_column(columns, random, &[Sort::Bytes], |text, _| text.truncate(text.len() - 1))
    }),
    ("a digit too many in a byte string", |columns, random| {
        in_column(columns, random, &[Sort::Bytes], |text, _| text.push(b'0'))
    }),
    ("space inside a number", |columns, random| {
        in_column(columns, random, &HEX, |text, random| {
            let place = random.from_to(1, text.len().max(2) - 1);
            text.insert(place.min(text.len()), b' ');
        })
    }),
];

/// Spoils a line by one to three random edits. It may stay well formed.
pub fn mutated(line: &[u8], random: &mut Random) -> Vec<u8> {
    let mut line = line.to_vec();
    for _ in 0..random.from_to(1, 3) {
        let place = random.below(line.len().max(1));
        let byte = match random.below(4) {
            0 => random.number() as u8,
            1 => *random.pick(b" \t\r\0"),
            _ => *random.pick(b"0123456789ABCDEFabcdefG-"),
        };
        let byte = if byte == b'\n' { b'\r' } else { byte };
        match random.below(3) {
            0 => line.insert(place, byte),
            1 if !line.is_empty() => drop(line.remove(place)),
            _ if !line.is_empty() => line[place] = byte,
            _ => line.push(byte),
        }
    }
    line
}
