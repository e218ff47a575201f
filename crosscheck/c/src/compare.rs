//! The subcommand `compare`: a million calls of the C library, each compared
//! with crosscheck's own implementation: the number, the message after the call,
//! the buffers that must stay, and the bytes around all of them.

use crate::library::{self, Guarded, GuardedWords};
use crate::{inputs, packing};
use crosscheck::random::Random;
use crosscheck::rules::{
    interrogation_seal, remainder_of_message, reply_seal, transponder, Heard,
};
use crosscheck::sensor::{sense, Answer};
use crosscheck::tally::{Group, Tally};
use crosscheck::text::hex;

const CALLS: usize = 1_000_000;
const SEED: u64 = 6;

const ANSWERS: &str = "answers, by call and number of bytes";
const REFUSALS: &str = "refusals, by call";
const WINDOWS: &str = "windows, by answer and number of bytes";
const COUNTS: &str = "bits changed, of both lengths";
const NULLS: &str = "null pointers of length 0";

fn groups() -> Vec<Group> {
    let of_both = |answers: &[&str]| -> Vec<String> {
        answers
            .iter()
            .flat_map(|answer| [7, 14].map(|bytes| format!("{answer}, {bytes}")))
            .collect()
    };
    let mut answers = of_both(&["reply sealed", "interrogation sealed", "own", "not ours"]);
    answers.extend(["all-call, 7".to_string(), "broadcast, 14".to_string()]);
    answers.extend(of_both(&["clean", "dense", "no fit", "sole", "several"]));
    let mut refusals = Vec::new();
    for (call, rows) in [("reply", &[1, 3, 5][..]), ("interrogation", &[1, 3, 5])] {
        refusals.extend(rows.iter().map(|row| format!("{call} {row}")));
    }
    refusals.extend([1, 3, 5, 6].map(|row| format!("receive {row}")));
    refusals.extend([1, 2, 3, 4].map(|row| format!("correct {row}")));
    let mut windows = Vec::new();
    for (bytes, last) in [(7, 32), (14, 88)] {
        for answer in ["dense", "corrected"] {
            windows.extend((0..=last).map(|window| format!("{answer}, {bytes}, {window}")));
        }
    }
    answers.extend(["recording of none", "recording of one", "recording of more"].map(String::from));
    refusals.extend(["recording 1, no multiple", "recording 1, not as many"].map(String::from));
    let nulls = [
        "reply",
        "interrogation",
        "receive",
        "correct",
        "correct, marks alone",
        "recording",
        "recording, words alone",
    ];
    vec![
        Group::each(ANSWERS, answers),
        Group::each(REFUSALS, refusals),
        Group::summed(WINDOWS, windows),
        Group::summed(COUNTS, 1..=24),
        Group::each(NULLS, nulls),
    ]
}

/// A call with what was found wrong in it.
struct Wrong(String);

struct Run {
    random: Random,
    tally: Tally,
}

impl Run {
    fn lend(&mut self, bytes: &[u8]) -> Guarded {
        let salt = self.random.number();
        Guarded::new(bytes, salt, self.random.one_in(2))
    }

    fn note_null(&mut self, call: &'static str, bytes: &[u8], buffer: &Guarded) {
        if bytes.is_empty() && buffer.is_null() {
            self.tally.add(NULLS, call);
        }
    }

    /// A seal of one of the two kinds.
    fn seal(&mut self, of_reply: bool) -> Result<(), Wrong> {
        let bytes = inputs::message(&mut self.random);
        let word = inputs::word(&mut self.random);
        let mut buffer = self.lend(&bytes);
        let (call, number, due) = if of_reply {
            ("reply", library::seal_reply(&mut buffer, word), reply_seal(&bytes, word))
        } else {
            let number = library::seal_interrogation(&mut buffer, word);
            ("interrogation", number, interrogation_seal(&bytes, word))
        };
        let (expected, after) = match due {
            Ok(sealed) => (packing::SEALED, sealed),
            Err(row) => (packing::refused(row), bytes.clone()),
        };
        match due_row(expected) {
            Some(row) => self.tally.add(REFUSALS, format!("{call} {row}")),
            None => self.tally.add(ANSWERS, format!("{call} sealed, {}", bytes.len())),
        }
        self.note_null(call, &bytes, &buffer);
        let right = number == expected && buffer.content() == after && buffer.is_whole();
        right.then_some(()).ok_or_else(|| {
            let (bytes, after, content) = (hex(&bytes), hex(&after), hex(buffer.content()));
            Wrong(format!(
                "{call} {bytes} {word:X}: {number:016X} {content}, due {expected:016X} {after}"
            ))
        })
    }

    fn receive(&mut self) -> Result<(), Wrong> {
        let (own, bytes) = inputs::interrogation(&mut self.random);
        let mut buffer = self.lend(&bytes);
        let number = library::receive(own, &mut buffer);
        let due = transponder(&bytes, own);
        let expected = packing::heard(due);
        let word = match due {
            Heard::Refused(row) => {
                self.tally.add(REFUSALS, format!("receive {row}"));
                None
            }
            Heard::Own => Some("own"),
            Heard::AllCall => Some("all-call"),
            Heard::Broadcast => Some("broadcast"),
            Heard::NotOurs(_) => Some("not ours"),
        };
        if let Some(word) = word {
            self.tally.add(ANSWERS, format!("{word}, {}", bytes.len()));
        }
        self.note_null("receive", &bytes, &buffer);
        let right = number == expected && buffer.is_untouched();
        right.then_some(()).ok_or_else(|| {
            let bytes = hex(&bytes);
            Wrong(format!("receive {own:X} {bytes}: {number:016X}, due {expected:016X}"))
        })
    }

    fn correct(&mut self) -> Result<(), Wrong> {
        let call = inputs::sensed(&mut self.random);
        let mut message = self.lend(&call.message);
        let mut confidence = self.lend(&call.confidence);
        let number = library::correct(&mut message, &mut confidence, call.word, call.limit);
        let due = sense(&call.message, &call.confidence, call.word, call.limit);
        let expected = packing::sensed(due.answer);
        self.count_sensed(due.answer, call.message.len());
        self.note_null("correct", &call.message, &message);
        if !call.message.is_empty() {
            self.note_null("correct, marks alone", &call.confidence, &confidence);
        }
        let whole = message.is_whole() && confidence.is_untouched();
        let right = number == expected && message.content() == due.message && whole;
        right.then_some(()).ok_or_else(|| {
            let (bytes, marks) = (hex(&call.message), hex(&call.confidence));
            let (content, after) = (hex(message.content()), hex(&due.message));
            Wrong(format!(
                "correct {bytes} {marks} {:X} {}: {number:016X} {content}, due {expected:016X} {after}",
                call.word, call.limit
            ))
        })
    }

    /// The division of a recording: where it is refused, every word stays.
    fn divide(&mut self) -> Result<(), Wrong> {
        let (bytes, count) = inputs::recording(&mut self.random);
        let mut replies = self.lend(&bytes);
        let salt = self.random.number();
        let mut words = GuardedWords::new(count, salt, self.random.one_in(2));
        let number = library::remainders(&mut replies, &mut words);
        let (expected, after) = if bytes.len() == 14 * count {
            (packing::DIVIDED, bytes.chunks(14).map(remainder_of_message).collect())
        } else {
            (packing::refused(1), words.handed().to_vec())
        };
        match due_row(expected) {
            Some(_) if bytes.len() % 14 != 0 => self.tally.add(REFUSALS, "recording 1, no multiple"),
            Some(_) => self.tally.add(REFUSALS, "recording 1, not as many"),
            None => self.tally.add(ANSWERS, ["recording of none", "recording of one", "recording of more"][count.min(2)]),
        }
        self.note_null("recording", &bytes, &replies);
        if words.is_null() && !bytes.is_empty() {
            self.tally.add(NULLS, "recording, words alone");
        }
        let whole = replies.is_untouched() && words.is_whole();
        let right = number == expected && words.content() == after && whole;
        right.then_some(()).ok_or_else(|| {
            let (bytes, content) = (hex(&bytes), words.content());
            Wrong(format!("recording {bytes} {count}: {number:016X} {content:X?}, due {expected:016X} {after:X?}"))
        })
    }

    fn count_sensed(&mut self, answer: Answer, bytes: usize) {
        let word = match answer {
            Answer::Refused(row) => return self.tally.add(REFUSALS, format!("correct {row}")),
            Answer::Clean => "clean",
            Answer::Dense { window } => {
                self.tally.add(WINDOWS, format!("dense, {bytes}, {window}"));
                "dense"
            }
            Answer::NoFit => "no fit",
            Answer::Corrected { window, ones, mark } => {
                self.tally.add(WINDOWS, format!("corrected, {bytes}, {window}"));
                self.tally.add(COUNTS, ones);
                mark.word()
            }
        };
        self.tally.add(ANSWERS, format!("{word}, {bytes}"));
    }
}

/// The refusal's row in a number that is one.
fn due_row(number: u64) -> Option<u64> {
    (number & 0xFF == 1).then_some(number >> 8)
}

/// Whether every call was right and every kind was met; what was found is
/// printed.
pub fn compare() -> bool {
    let mut run = Run { random: Random::new(SEED), tally: Tally::new(groups()) };
    for call in 0..CALLS {
        let result = match call % 5 {
            0 => run.seal(true),
            1 => run.seal(false),
            2 => run.receive(),
            3 => run.divide(),
            _ => run.correct(),
        };
        if let Err(Wrong(what)) = result {
            println!("WRONG: {what}");
            return false;
        }
    }
    print!("{}", run.tally.table());
    let missing = run.tally.missing();
    for kind in &missing {
        println!("NOT MET: {kind}");
    }
    println!("{CALLS} calls of the C library, each as crosscheck's own");
    missing.is_empty()
}
