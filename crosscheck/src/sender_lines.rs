//! Lines for the sender's calls of `elm`: rounds of every size for every message, every
//! reason of row 12, whole games against an interferer, and malformed lines.

use crate::blocks::{Made, MALFORMED};
use crate::calls_lines::{assigned, name, string, word, word_above};
use crate::defects::*;
use crate::elm::{MOST_DATA, MOST_ROOM};
use crate::random::Random;
use crate::rules::HIGHEST;
use crate::sender::{play, Call, Game, Interferer, Move, MOST, SEGMENT, TRANSMISSION};

/// The groups of games, counted at their last line.
pub const WHOLE: &str = "games that end whole, by segments and s";
pub const KEPT: &str = "games kept incomplete, by segments and s";

fn decimal(random: &mut Random, number: usize) -> Column {
    let text = if random.one_in(4) { format!("{number:03}") } else { number.to_string() };
    (Sort::Level, text.into_bytes())
}

fn columns_of(
    random: &mut Random,
    call: Call,
    address: u32,
    data: &[u8],
    room: usize,
) -> Vec<Column> {
    let mut columns = vec![name(call.word()), word(random, address), string(data)];
    if let Call::Round { acknowledged, s } = call {
        columns.push((Sort::Word, format!("{acknowledged:04X}").into_bytes()));
        columns.push(decimal(random, s));
    }
    columns.push(decimal(random, room));
    columns
}

fn line(random: &mut Random, call: Call, address: u32, data: &[u8], room: usize) -> Made {
    Made::plain(join(&columns_of(random, call, address, data, room)))
}

/// The length of the buffer that a call asks for, as far as a line can name it.
fn asked(call: Call, data: &[u8]) -> usize {
    let count = (data.len() / SEGMENT).max(1);
    (call.numbers(count).len() * TRANSMISSION).min(MOST_ROOM as usize)
}

/// A call with the buffer that it asks for.
fn fitting(random: &mut Random, call: Call, address: u32, data: &[u8]) -> Made {
    line(random, call, address, data, asked(call, data))
}

/// Bits of which those below `count` are set but for these.
fn bits(random: &mut Random, count: usize, waiting: &[usize]) -> u32 {
    let set = |number: usize, random: &mut Random| {
        if number < count {
            !waiting.contains(&number)
        } else {
            random.one_in(2)
        }
    };
    (0..MOST).fold(0, |bits, number| 2 * bits + u32::from(set(number, random)))
}

fn any_bits(random: &mut Random) -> u32 {
    let word = random.number() as u32;
    let other = random.number() as u32;
    (match random.below(4) {
        0 => 0,
        1 => word,
        2 => word | other,
        _ => word & other,
    }) & 0xFFFF
}

fn any_kind(random: &mut Random, s: usize) -> Call {
    match random.below(4) {
        0 => Call::Open,
        1 => Call::Exchange,
        _ => Call::Round { acknowledged: any_bits(random), s },
    }
}

/// Any call: mostly a right one.
fn any_call(random: &mut Random) -> Made {
    let s = match random.below(12) {
        0 => *random.pick(&[0, 17, 18, 999]),
        _ => random.from_to(1, MOST),
    };
    let call = any_kind(random, s);
    let length = match random.below(12) {
        0 => random.from_to(0, MOST_DATA),
        1 => SEGMENT * random.from_to(0, 18),
        _ => SEGMENT * random.from_to(2, MOST),
    };
    let data = random.bytes(length);
    let above = word_above(random);
    let address = match random.below(12) {
        0 => *random.pick(&[0, HIGHEST, above]),
        _ => assigned(random),
    };
    let room = match random.below(8) {
        0 => random.from_to(0, MOST_ROOM as usize),
        _ => asked(call, &data),
    };
    line(random, call, address, &data, room)
}

/// Rounds of every size for every message: of all its segments, of so many, and of one.
fn rounds(random: &mut Random) -> Vec<Made> {
    let mut lines = Vec::new();
    for count in 2..=MOST {
        let data = random.bytes(count * SEGMENT);
        let own = assigned(random);
        for s in 1..=MOST {
            let call = Call::Round { acknowledged: 0, s };
            lines.push(fitting(random, call, own, &data));
        }
        for left in 0..=count {
            let waiting = random.choose(left, count);
            let acknowledged = bits(random, count, &waiting);
            let call = Call::Round { acknowledged, s: random.from_to(1, MOST) };
            lines.push(fitting(random, call, own, &data));
        }
        for number in 0..count {
            let acknowledged = bits(random, count, &[number]);
            let call = Call::Round { acknowledged, s: random.from_to(1, MOST) };
            lines.push(fitting(random, call, own, &data));
        }
    }
    lines
}

/// Each call with messages of every length, with buffers of every length, and with every s.
fn wrong_sizes(random: &mut Random) -> Vec<Made> {
    let mut lines = Vec::new();
    let own = assigned(random);
    let right = random.bytes(5 * SEGMENT);
    for length in 0..=MOST_DATA {
        let data = random.bytes(length);
        for call in [Call::Open, Call::Round { acknowledged: 0, s: 3 }, Call::Exchange] {
            lines.push(fitting(random, call, own, &data));
        }
    }
    for room in 0..=MOST_ROOM as usize {
        let round = Call::Round { acknowledged: 0x4000, s: 5 };
        let all = Call::Round { acknowledged: 0xF800, s: 5 };
        for call in [Call::Open, round, all, Call::Exchange] {
            lines.push(line(random, call, own, &right, room));
        }
    }
    for s in (0..20).chain([100, 255, 256, 999]) {
        let call = Call::Round { acknowledged: 0, s };
        lines.push(fitting(random, call, own, &right));
    }
    lines
}

/// Each call for the addresses at the ends, and for one above.
fn addresses(random: &mut Random) -> Vec<Made> {
    let mut lines = Vec::new();
    for address in [0, HIGHEST, HIGHEST + 1, u32::MAX] {
        for call in [Call::Open, Call::Round { acknowledged: 0, s: 2 }, Call::Exchange] {
            let data = random.bytes(3 * SEGMENT);
            lines.push(fitting(random, call, address, &data));
            lines.push(line(random, call, address, &data[..29], 0));
        }
    }
    lines
}

/// The lines of a game; the last, which the receiver hears, is aimed at its end.
fn lines_of(
    random: &mut Random,
    own: u32,
    data: &[u8],
    game: Game,
    group: &'static str,
    kind: String,
) -> Vec<Made> {
    let mut lines = vec![Made::plain(b"fresh".to_vec())];
    let mut last = Vec::new();
    for step in game.moves {
        match step {
            Move::Sends(call, room) => lines.push(line(random, call, own, data, room)),
            Move::Hears(message) => {
                last = join(&[name("receive"), word(random, own), string(&message)]);
                lines.push(Made::plain(last.clone()));
            }
        }
    }
    lines.pop();
    lines.push(Made::aimed(last, group, kind, Some("own")));
    lines
}

/// Two games of every size against the interferer that hurts most, and against one that destroys
/// everything: the end of an input may part one of the two.
fn games(random: &mut Random) -> Vec<Made> {
    let mut lines = Vec::new();
    for count in 2..=MOST {
        for s in 1..=MOST {
            let kind = format!("{count} segments, s {s}");
            let own = assigned(random);
            let data = random.bytes(count * SEGMENT);
            for _ in 0..2 {
                let game = play(random, own, &data, s, Interferer::Stubborn(s - 1), count);
                lines.extend(lines_of(random, own, &data, game, WHOLE, kind.clone()));
                let game = play(random, own, &data, s, Interferer::Everything, 3);
                lines.extend(lines_of(random, own, &data, game, KEPT, kind.clone()));
            }
        }
    }
    lines
}

/// A game of any size against an interferer that destroys anywhere.
fn any_game(random: &mut Random) -> Vec<Made> {
    let (count, s) = (random.from_to(2, MOST), random.from_to(1, MOST));
    let own = assigned(random);
    let data = random.bytes(count * SEGMENT);
    let interferer = Interferer::Anywhere(random.below(s));
    let game = play(random, own, &data, s, interferer, count);
    lines_of(random, own, &data, game, WHOLE, format!("{count} segments, s {s}"))
}

/// A well-formed line of any kind.
pub fn any_line(random: &mut Random) -> Vec<u8> {
    any_call(random).text
}

fn columns(random: &mut Random) -> Vec<Column> {
    let s = random.from_to(1, MOST);
    let call = any_kind(random, s);
    let count = random.from_to(2, 4);
    let data = random.bytes(count * SEGMENT);
    let own = assigned(random);
    columns_of(random, call, own, &data, asked(call, &data))
}

/// Forms that no line has: each is one step from one that a line has.
pub const WRONG_FORMS: [&str; 27] = [
    "open",
    "open ",
    "open 0",
    "open 0 -",
    "open 0 - ",
    "open 0 - 0000",
    "open 0 - 241",
    "open 0 - 999",
    "open 0 - -",
    "open 0 - F",
    "open 0 - 0 0",
    "open - - 0",
    "open 0 -- 0",
    "open 000000001 - 0",
    "Open 0 - 0",
    "opens 0 - 0",
    "round 0 - 0",
    "round 0 - 0000 1",
    "round 0 - 000 1 0",
    "round 0 - 00000 1 0",
    "round 0 - 000g 1 0",
    "round 0 - - 1 0",
    "round 0 - 0000 0001 0",
    "round 0 - 0000 F 0",
    "round 0 - 0000 1 0 0",
    "exchange 0 -",
    "exchange 0 - 0000 1 0",
];

/// The malformed lines of the sender, aimed at the group of all malformed lines.
fn malformed(random: &mut Random) -> Vec<Made> {
    let mut lines = spoiled(random, MALFORMED, crate::elm_lines::defects(), columns);
    for form in WRONG_FORMS {
        let text = form.as_bytes().to_vec();
        lines.push(Made::aimed(text, MALFORMED, form.escape_debug(), Some("malformed")));
    }
    for digits in [361, 362] {
        let text = [&b"open 0 "[..], &vec![b'0'; digits], b" 14"].concat();
        lines.push(Made::aimed(text, MALFORMED, format!("{digits} digits"), Some("malformed")));
    }
    lines
}

/// Lines that one time is enough for.
pub fn once(random: &mut Random) -> Vec<Made> {
    let mut lines = rounds(random);
    lines.extend(wrong_sizes(random));
    lines.extend(addresses(random));
    lines.extend(games(random));
    lines
}

/// One round of lines.
pub fn round(random: &mut Random) -> Vec<Made> {
    let mut lines = malformed(random);
    for _ in 0..150 {
        lines.push(any_call(random));
    }
    for _ in 0..3 {
        lines.extend(any_game(random));
    }
    lines
}

#[cfg(test)]
mod tests {
    use super::*;
    use crate::elm::read;

    #[test]
    fn every_defect_spoils_every_line() {
        let mut random = Random::new(37);
        for _ in 0..200 {
            for (name, spoil) in crate::elm_lines::defects() {
                let columns = columns(&mut random);
                if let Some(line) = spoil(&columns, &mut random) {
                    assert_eq!(read(&line), None, "{name}: {}", line.escape_ascii());
                }
            }
        }
    }

    #[test]
    fn every_wrong_form_is_malformed() {
        for form in WRONG_FORMS {
            assert_eq!(read(form.as_bytes()), None, "{form}");
        }
    }

    #[test]
    fn any_line_is_well_formed() {
        let mut random = Random::new(38);
        for _ in 0..500 {
            let line = any_line(&mut random);
            assert!(read(&line).is_some(), "{}", line.escape_ascii());
        }
    }
}
