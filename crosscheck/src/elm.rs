//! What `elm` has to print for a whole input (document 02, Points 7 and 10): one receiver
//! of extended length messages, the sender's calls, and a line a call.
//!
//! The receiver is the plain machine of Point 7: the last number of the message that
//! is opened, if one is, and the segments held, by their numbers.

use crate::calls::MOST_STRING;
use crate::poly::{bits_of_bytes, bytes_of_bits, word_of_bits};
use crate::rules::{transponder, Heard};
use crate::sender::{send, Call};
use crate::text::*;
use std::collections::BTreeMap;

/// The number of places for segments.
pub const PLACES: u32 = 16;

/// The most bytes of a message to be sent, and of the buffer that is lent; each byte of that
/// buffer before the call.
pub const MOST_DATA: usize = 180;
pub const MOST_ROOM: u32 = 240;
const FILLED: u8 = 0x55;

/// A well-formed line.
#[derive(Debug, Clone, PartialEq, Eq)]
pub enum Line {
    Fresh,
    Receive(u32, Vec<u8>),
    Send { call: Call, address: u32, data: Vec<u8>, room: usize },
}

/// A line of the sender; none if a column is malformed.
fn sending(call: Call, address: &[u8], data: &[u8], room: &[u8]) -> Option<Line> {
    let address = hex_number(address, 1, 8)?;
    let data = if data == b"-" { Vec::new() } else { hex_bytes(data, MOST_DATA)? };
    let room = decimal_number(room, 3).filter(|room| *room <= MOST_ROOM)?;
    Some(Line::Send { call, address, data, room: room as usize })
}

/// Reads a line without its line feed; none if it is malformed.
pub fn read(line: &[u8]) -> Option<Line> {
    let columns: Vec<&[u8]> = line.split(|byte| *byte == b' ').collect();
    Some(match columns[..] {
        [b"fresh"] => Line::Fresh,
        [b"receive", own, b"-"] => Line::Receive(hex_number(own, 1, 8)?, Vec::new()),
        [b"receive", own, message] => {
            Line::Receive(hex_number(own, 1, 8)?, hex_bytes(message, MOST_STRING)?)
        }
        [b"open", address, data, room] => sending(Call::Open, address, data, room)?,
        [b"round", address, data, bits, s, room] => {
            let acknowledged = hex_number(bits, 4, 4)?;
            let s = decimal_number(s, 3)? as usize;
            sending(Call::Round { acknowledged, s }, address, data, room)?
        }
        [b"exchange", address, data, room] => sending(Call::Exchange, address, data, room)?,
        _ => return None,
    })
}

/// What a message of format 24 says: its first two bits are 11.
#[derive(Debug, Clone, PartialEq, Eq)]
pub struct Segment {
    pub rc: u32,
    pub nc: u32,
    pub bytes: Vec<u8>,
}

/// The segment in a message; none in another format.
pub fn segment(message: &[u8]) -> Option<Segment> {
    let bits = bits_of_bytes(message);
    if bits.len() < 88 || !(bits[0] && bits[1]) {
        return None;
    }
    let rc = word_of_bits(&bits[2..4]);
    let nc = word_of_bits(&bits[4..8]);
    Some(Segment { rc, nc, bytes: bytes_of_bits(&bits[8..88]) })
}

/// The receiver between two lines.
#[derive(Debug, Clone, Default, PartialEq, Eq)]
pub struct Machine {
    /// The last number of the message that is opened.
    pub last: Option<u32>,
    pub held: BTreeMap<u32, Vec<u8>>,
}

/// What a line is answered.
#[derive(Debug, Clone, PartialEq, Eq)]
pub enum Reply {
    Fresh,
    Heard(Heard, u32, bool),
    Refused(u8),
    /// The number of transmissions, and the buffer after the call.
    Sent(usize, Vec<u8>),
    /// The row that refused the sender's call, and the buffer after it.
    Unsent(u8, Vec<u8>),
}

impl Reply {
    pub fn word(&self) -> &'static str {
        match self {
            Reply::Fresh => "fresh",
            Reply::Heard(Heard::Own, ..) => "own",
            Reply::Heard(Heard::AllCall, ..) => "allcall",
            Reply::Heard(Heard::Broadcast, ..) => "broadcast",
            Reply::Heard(Heard::NotOurs(_), ..) => "notours",
            Reply::Heard(Heard::Refused(_), ..) | Reply::Refused(_) | Reply::Unsent(..) => {
                "refused"
            }
            Reply::Sent(..) => "sent",
        }
    }
}

impl Machine {
    /// 16 bits, the first for segment 0.
    pub fn acknowledgement(&self) -> u32 {
        let bits: Vec<bool> = (0..PLACES).map(|number| self.held.contains_key(&number)).collect();
        word_of_bits(&bits)
    }

    pub fn is_whole(&self) -> bool {
        let all = |last: u32| (0..=last).all(|number| self.held.contains_key(&number));
        self.last.is_some_and(all)
    }

    /// Does what a segment says, or gives the row that refuses it.
    fn take(&mut self, segment: Segment) -> Result<(), u8> {
        let Segment { rc, nc, bytes } = segment;
        match (rc, self.last) {
            (0, _) if nc == 0 => return Err(10),
            (0, _) => {
                self.last = Some(nc);
                self.held.clear();
            }
            (1 | 2, None) => return Err(10),
            (1 | 2, Some(last)) if nc > last => return Err(11),
            (1 | 2, Some(_)) => (),
            _ => return Ok(()),
        }
        self.held.insert(nc, bytes);
        Ok(())
    }

    fn receive(&mut self, own: u32, message: &[u8]) -> Reply {
        let heard = transponder(message, own);
        if let Heard::Refused(row) = heard {
            return Reply::Refused(row);
        }
        if heard == Heard::Own {
            if let Some(Err(row)) = segment(message).map(|segment| self.take(segment)) {
                return Reply::Refused(row);
            }
        }
        Reply::Heard(heard, self.acknowledgement(), self.is_whole())
    }

    /// Does what a line says, and answers it.
    pub fn answer(&mut self, line: &Line) -> Reply {
        match line {
            Line::Fresh => {
                *self = Machine::default();
                Reply::Fresh
            }
            Line::Receive(own, message) => self.receive(*own, message),
            Line::Send { call, address, data, room } => match send(*call, *address, data, *room) {
                Ok(sent) => Reply::Sent(sent.len(), sent.concat()),
                Err(row) => Reply::Unsent(row, vec![FILLED; *room]),
            },
        }
    }
}

/// What came of a line that is well formed, and the receiver before it.
pub struct Met {
    pub line: Line,
    pub reply: Reply,
    pub before: Machine,
    pub after: Machine,
}

/// The output line for what came of line `number`; the receiver is the one after it.
fn print(number: usize, reply: Option<&Reply>, machine: &Machine) -> String {
    let value = match reply {
        Some(Reply::Refused(row) | Reply::Unsent(row, _)) => row.to_string(),
        Some(Reply::Sent(count, _)) => count.to_string(),
        Some(Reply::Heard(Heard::NotOurs(address), ..)) => format!("{address:06X}"),
        _ => "-".to_string(),
    };
    let progress = match reply {
        Some(Reply::Heard(_, acknowledgement, whole)) => {
            format!("{acknowledgement:04X} {}", if *whole { "yes" } else { "no" })
        }
        _ => "- -".to_string(),
    };
    let shown: Vec<u8> = match reply {
        Some(Reply::Sent(_, buffer) | Reply::Unsent(_, buffer)) => buffer.clone(),
        _ => machine.held.values().flatten().copied().collect(),
    };
    let word = reply.map_or("malformed", Reply::word);
    format!("{number} {word} {value} {progress} {}\n", hex_or_dash(&shown))
}

/// The whole output for a whole input; `met` is shown what came of each line.
pub fn output_and_show(input: &[u8], mut met: impl FnMut(usize, Option<&Met>)) -> Vec<u8> {
    if input.len() > MOST_BYTES {
        return TOO_LONG.as_bytes().to_vec();
    }
    let mut machine = Machine::default();
    let mut output = String::new();
    for (index, line) in lines(input).into_iter().enumerate() {
        let judged = read(line).map(|line| {
            let before = machine.clone();
            let reply = machine.answer(&line);
            Met { line, reply, before, after: machine.clone() }
        });
        met(index, judged.as_ref());
        output += &print(index + 1, judged.as_ref().map(|met| &met.reply), &machine);
    }
    output.into_bytes()
}

pub fn output(input: &[u8]) -> Vec<u8> {
    output_and_show(input, |_, _| ())
}

#[cfg(test)]
mod tests {
    use super::*;
    use crate::rules::interrogation_seal;

    const OWN: u32 = 0x48_40D6;

    /// A line with a segment of ten equal bytes, sealed for `OWN`.
    fn line(rc: u8, nc: u8, byte: u8) -> String {
        let mut message = vec![byte; 14];
        message[0] = 0xC0 | rc << 4 | nc;
        let sealed = interrogation_seal(&message, OWN).expect("not refused");
        format!("receive {OWN:X} {}\n", hex(&sealed))
    }

    fn printed(lines: &[String]) -> Vec<String> {
        let output = String::from_utf8(output(lines.concat().as_bytes())).expect("text");
        output.lines().map(str::to_string).collect()
    }

    #[test]
    fn a_message_of_three() {
        let (a, b, c, d) = ("AA".repeat(10), "BB".repeat(10), "CC".repeat(10), "DD".repeat(10));
        let lines = [
            line(1, 0, 0xAA),
            line(0, 0, 0xAA),
            line(0, 2, 0xCC),
            line(2, 0, 0xAA),
            line(1, 3, 0xBB),
            line(3, 9, 0xBB),
            line(1, 1, 0xBB),
            line(1, 1, 0xDD),
            line(0, 2, 0xCC),
            "fresh\n".to_string(),
        ];
        let expected = [
            "1 refused 10 - - -".to_string(),
            "2 refused 10 - - -".to_string(),
            format!("3 own - 2000 no {c}"),
            format!("4 own - A000 no {a}{c}"),
            format!("5 refused 11 - - {a}{c}"),
            format!("6 own - A000 no {a}{c}"),
            format!("7 own - E000 yes {a}{b}{c}"),
            format!("8 own - E000 yes {a}{d}{c}"),
            format!("9 own - 2000 no {c}"),
            "10 fresh - - - -".to_string(),
        ];
        assert_eq!(printed(&lines), expected);
    }

    #[test]
    fn what_changes_nothing() {
        let mut other = line(1, 0, 0xAA);
        other.replace_range(8..14, "123456");
        let lines = [line(0, 1, 0xCC), other, "receive 0 -\n".to_string(), "x\n".to_string()];
        let held = "CC".repeat(10);
        let expected = [
            format!("1 own - 4000 no {held}"),
            format!("2 notours 4840D6 4000 no {held}"),
            format!("3 refused 1 - - {held}"),
            format!("4 malformed - - - {held}"),
        ];
        assert_eq!(printed(&lines), expected);
    }

    /// Two segments sent to the receiver of the same program.
    #[test]
    fn sent_and_received() {
        let (a, b) = ("AA".repeat(10), "BB".repeat(10));
        let lines = [
            format!("open {OWN:X} {a}{b} 14\n"),
            line(0, 1, 0xBB),
            format!("round {OWN:X} {a}{b} 0000 3 42\n"),
            format!("round {OWN:X} {a}{b} C000 3 0\n"),
            format!("round {OWN:X} {a}{b} C000 3 2\n"),
            format!("exchange 1000000 {a}{b} 0\n"),
        ];
        let sealed = |rc, nc, byte| line(rc, nc, byte)[15..43].to_string();
        let (first, second) = (sealed(1, 0, 0xAA), sealed(1, 1, 0xBB));
        let expected = [
            format!("1 sent 1 - - {}", sealed(0, 1, 0xBB)),
            format!("2 own - 4000 no {b}"),
            format!("3 sent 3 - - {first}{second}{first}"),
            "4 sent 0 - - -".to_string(),
            "5 refused 12 - - 5555".to_string(),
            "6 refused 3 - - -".to_string(),
        ];
        assert_eq!(printed(&lines), expected);
    }

    #[test]
    fn forms() {
        for line in ["fresh", "receive 0 -", "receive FFFFFFFF 00"] {
            assert!(read(line.as_bytes()).is_some(), "{line}");
        }
        let long = format!("receive 0 {}", "00".repeat(33));
        for line in
            ["", "fresh ", "Fresh", "receive", "receive 0", "receive 0 0", "receive - 00", &long]
        {
            assert!(read(line.as_bytes()).is_none(), "{line}");
        }
    }
}
