//! The built `sift` held to the last sentence of demand 3: 'A reply sealed for
//! that word and hit by such a burst, on low-confidence bits only, never gets
//! 'no fit', and comes back as sent when 'sole'.'
//!
//! Replies are sealed by the encoder of `rules`, hit by a burst inside one
//! window and marked low at every changed bit, some at others too. What the
//! program prints is judged by the sentence and by what was sent; the reference
//! sensor is not asked.

use crate::blocks::{pack, Block, Made};
use crate::limit::MODELS;
use crate::poly::*;
use crate::random::Random;
use crate::rules::reply_seal;
use crate::run::run;
use crate::sensor::{densest, invert, windows};
use crate::sift::HEADER;
use crate::sift_lines::{change_in, line, remainder_of_change, LENGTHS};
use crate::simulate::{hit, Model};
use crate::tally::{Group, Tally};
use crate::text::{hex, lines};
use std::path::Path;
use std::time::Instant;

/// At least this many replies are tried.
const LEAST_REPLIES: usize = 100_000;

/// Rounds of replies go on until every kind is met, but not for ever.
const MOST_ROUNDS: usize = 1000;

/// So many rounds are packed into inputs together.
const ROUNDS_TOGETHER: usize = 10;

const SEED: u64 = 3;

const ANSWERS: &str = "answers";
const BURSTS: &str = "by length and the lowest window that holds the burst";
const ONES: &str = "by length and the number of bits changed";
const MARKS: &str = "by the marks";
const LIMITS: &str = "by the limit";

const BARE: &str = "the changed bits alone";
const RIVAL: &str = "the changed bits, and those of another change with that remainder";

/// A reply that a burst has hit, every changed bit marked low.
pub struct HitReply {
    word: u32,
    sent: Vec<u8>,
    changed: Vec<usize>,
    low: Bits,
    limit: usize,
    marks: &'static str,
}

impl HitReply {
    /// Seals a random field for a random word, with the first bit that the length
    /// asks for, under a random limit.
    fn new(random: &mut Random, changed: Vec<usize>, low: Bits, marks: &'static str) -> HitReply {
        assert!(!changed.is_empty() && changed.iter().all(|bit| low[bit - 1]));
        let word = random.word();
        let mut message = random.bytes(low.len() / 8);
        message[0] = if low.len() == 112 { message[0] | 0x80 } else { message[0] & 0x7F };
        let sent = reply_seal(&message, word).expect("the first bit is right");
        HitReply { word, sent, changed, low, limit: random.below(25), marks }
    }

    /// The reply as it was received, as a line for `sift`.
    fn line(&self) -> Vec<u8> {
        let received = invert(&bits_of_bytes(&self.sent), &self.changed);
        line(&received, &self.low, self.word, self.limit)
    }

    /// The lowest window that holds every changed bit.
    fn window(&self) -> usize {
        let last = self.changed.iter().max().expect("a changed bit");
        last.saturating_sub(DEGREE)
    }

    /// What an output line answers, or how it breaks the sentence. `number` is
    /// the line's.
    fn judge(&self, number: usize, output: &[u8]) -> Result<&'static str, &'static str> {
        let text = String::from_utf8_lossy(output);
        let columns: Vec<&str> = text.split(' ').collect();
        let [first, answer, _, _, mark, message] = columns[..] else {
            return Err("not six columns");
        };
        if first != number.to_string() {
            return Err("not the line's number");
        }
        let as_sent = message == hex(&self.sent);
        match (answer, mark) {
            ("nofit", _) => Err("'no fit' though the burst is on low marks of one window"),
            ("clean", _) => Err("'clean' though a burst has hit it"),
            ("dense", _) if densest(&self.low) > self.limit => Ok("dense"),
            ("dense", _) => Err("'dense', and no window has more marks than the limit"),
            ("corrected", "sole") if as_sent => Ok("sole"),
            ("corrected", "sole") => Err("'sole', and not as sent"),
            ("corrected", "several") if as_sent => Ok("several, as sent"),
            ("corrected", "several") => Ok("several, not as sent"),
            _ => Err("no answer that such a reply can get"),
        }
    }

    fn count(&self, tally: &mut Tally, answer: &str) {
        let n = self.low.len();
        tally.add(ANSWERS, format!("{answer}, {n} bits"));
        tally.add(BURSTS, format!("{n}: {}", self.window()));
        tally.add(ONES, format!("{n}: {}", self.changed.len()));
        tally.add(MARKS, format!("{}, {n} bits", self.marks));
        tally.add(LIMITS, self.limit);
    }
}

/// The models of `limit` with one burst and a mark on every changed bit.
fn perfect_models() -> impl Iterator<Item = &'static Model> {
    MODELS.iter().filter(|model| model.is_perfect())
}

/// All groups, with the kinds that a run has to meet.
pub fn groups() -> Vec<Group> {
    let of_lengths = |kinds: &[&str]| -> Vec<String> {
        let with_length = |kind: &&str| LENGTHS.map(|n| format!("{kind}, {n} bits"));
        kinds.iter().flat_map(with_length).collect()
    };
    let bursts = LENGTHS.into_iter().flat_map(|n| windows(n).map(move |w| format!("{n}: {w}")));
    let ones = LENGTHS.into_iter().flat_map(|n| (1..=DEGREE).map(move |k| format!("{n}: {k}")));
    let marks: Vec<&str> =
        [BARE, RIVAL].into_iter().chain(perfect_models().map(|model| model.name)).collect();
    vec![
        Group::each(
            ANSWERS,
            of_lengths(&["sole", "several, as sent", "several, not as sent", "dense"]),
        ),
        Group::each(MARKS, of_lengths(&marks)),
        Group::summed(BURSTS, bursts),
        Group::summed(ONES, ones),
        Group::summed(LIMITS, 0..=24),
    ]
}

/// Message bits of a burst in a window, 1 to 24 of them, the last one of the
/// window's among them: no lower window holds it.
fn burst(random: &mut Random, window: usize) -> Vec<usize> {
    let more = random.below(DEGREE);
    let mut bits: Vec<usize> =
        random.choose(more, DEGREE - 1).iter().map(|k| window + 1 + k).collect();
    bits.push(window + DEGREE);
    bits
}

/// A burst in a window, with the changed bits alone marked.
fn bare(random: &mut Random, n: usize, window: usize) -> HitReply {
    let changed = burst(random, window);
    let low = invert(&vec![false; n], &changed);
    HitReply::new(random, changed, low, BARE)
}

/// The same with the marks also on the change that another window has for the
/// same remainder.
fn with_rival(random: &mut Random, n: usize, window: usize) -> HitReply {
    let changed = burst(random, window);
    let mut low = invert(&vec![false; n], &changed);
    let rival = random.below(n - DEGREE + 1);
    for bit in change_in(n, rival, remainder_of_change(n, &changed)) {
        low[bit - 1] = true;
    }
    HitReply::new(random, changed, low, RIVAL)
}

/// A reply hit and marked as the simulation's model says.
fn simulated(random: &mut Random, n: usize, model: &'static Model) -> HitReply {
    let drawn = hit(random, n, model);
    let has = |bits: u128, bit: usize| bits >> (n - bit) & 1 == 1;
    let changed = (1..=n).filter(|bit| has(drawn.changed, *bit)).collect();
    let low = (1..=n).map(|bit| has(drawn.low, bit)).collect();
    HitReply::new(random, changed, low, model.name)
}

/// Replies of every recipe, every window once or more, in a random order.
fn round(random: &mut Random) -> Vec<HitReply> {
    let mut replies = Vec::new();
    for n in LENGTHS {
        for window in windows(n) {
            replies.push(bare(random, n, window));
            replies.push(with_rival(random, n, window));
        }
        for model in perfect_models() {
            replies.extend((0..200).map(|_| simulated(random, n, model)));
        }
    }
    random.shuffle(&mut replies);
    replies
}

/// What came of the replies that were tried.
struct Held {
    tally: Tally,
    replies: usize,
    inputs: usize,
    /// The replies whose answer breaks the sentence, and the first of them.
    faults: usize,
    first: Option<String>,
}

impl Held {
    fn new() -> Held {
        Held { tally: Tally::new(groups()), replies: 0, inputs: 0, faults: 0, first: None }
    }

    fn note(&mut self, fault: String) {
        self.faults += 1;
        self.first.get_or_insert(fault);
    }

    /// Judges the whole output for one input.
    fn judge(&mut self, replies: &[HitReply], output: &[u8]) {
        let printed = lines(output);
        if printed.len() != replies.len() + 1 || printed[0] != HEADER.trim_end().as_bytes() {
            return self.note(format!("no header and {} lines", replies.len()));
        }
        for (index, (reply, line)) in replies.iter().zip(&printed[1..]).enumerate() {
            match reply.judge(index + 1, line) {
                Ok(answer) => reply.count(&mut self.tally, answer),
                Err(fault) => self.note(format!(
                    "{fault}\n  sent: {}\n  line: {}\n  said: {}",
                    hex(&reply.sent),
                    reply.line().escape_ascii(),
                    line.escape_ascii()
                )),
            }
        }
    }

    /// Gives replies to the program, in full inputs.
    fn try_all(&mut self, program: &Path, replies: &[HitReply]) {
        let made = replies.iter().map(|reply| Made::plain(reply.line())).collect();
        let mut rest = replies;
        for Block { bytes, aims, feed } in pack(made) {
            let (these, others) = rest.split_at(aims.len());
            rest = others;
            self.inputs += 1;
            self.replies += these.len();
            match run(program, &bytes, feed) {
                Ok(output) => self.judge(these, &output),
                Err(error) => return self.note(error),
            }
        }
    }

    /// Prints the table and what is wrong; true if nothing is.
    fn report(&self, seconds: f64) -> bool {
        println!(
            "sift, replies sealed, hit by one burst on low marks, and judged by what was sent:\n\
             {} replies in {} inputs, {seconds:.1} s",
            self.replies, self.inputs
        );
        println!("{}", self.tally.table());
        if let Some(first) = &self.first {
            println!("{} replies break demand 3. The first:\n{first}\n", self.faults);
            return false;
        }
        let missing = self.tally.missing();
        for kind in &missing {
            println!("not tried: {kind}");
        }
        missing.is_empty()
    }
}

/// Holds the built `sift` to the sentence; true if no reply breaks it and every
/// kind was tried.
pub fn hold(program: &Path) -> bool {
    let start = Instant::now();
    let mut random = Random::new(SEED);
    let mut held = Held::new();
    for _ in 0..MOST_ROUNDS / ROUNDS_TOGETHER {
        let replies: Vec<HitReply> =
            (0..ROUNDS_TOGETHER).flat_map(|_| round(&mut random)).collect();
        held.try_all(program, &replies);
        let met = held.replies >= LEAST_REPLIES && held.tally.missing().is_empty();
        if met || held.faults > 0 {
            break;
        }
    }
    held.report(start.elapsed().as_secs_f64())
}

#[cfg(test)]
mod tests {
    use super::*;
    use crate::sift;

    /// The first fault of a program that answers by `answer`.
    fn fault_of(answer: fn(&HitReply, &sift::Judged) -> String) -> Option<String> {
        let mut held = Held::new();
        let replies = round(&mut Random::new(19));
        let mut output = HEADER.to_string();
        for (index, reply) in replies.iter().enumerate() {
            let judged = sift::judge(&reply.line());
            output += &format!("{} {}\n", index + 1, answer(reply, &judged));
        }
        held.judge(&replies, output.as_bytes());
        held.first
    }

    fn rightly(judged: &sift::Judged) -> String {
        let line = sift::print(1, judged);
        line[2..].trim_end().to_string()
    }

    #[test]
    fn the_reference_keeps_the_sentence() {
        assert_eq!(fault_of(|_, judged| rightly(judged)), None);
    }

    #[test]
    fn shams_break_it() {
        let breaks = |fault: Option<String>, words: &str| {
            let fault = fault.expect("a fault");
            assert!(fault.starts_with(words), "{fault}");
        };
        breaks(fault_of(|_, judged| rightly(judged).replace("several", "sole")), "'sole', and not");
        breaks(fault_of(|reply, _| format!("nofit - - - {}", hex(&reply.sent))), "'no fit'");
        breaks(fault_of(|reply, _| format!("clean - - - {}", hex(&reply.sent))), "'clean'");
        breaks(fault_of(|reply, _| format!("dense 0 - - {}", hex(&reply.sent))), "'dense', and");
        breaks(fault_of(|_, _| "malformed - - - -".to_string()), "no answer");
        breaks(fault_of(|_, _| String::new()), "not six columns");
    }

    #[test]
    fn a_line_more_or_less_is_a_fault() {
        let replies = round(&mut Random::new(20));
        for lines in [0, replies.len() - 1, replies.len() + 1] {
            let mut held = Held::new();
            held.judge(&replies, (HEADER.to_string() + &"1 \n".repeat(lines)).as_bytes());
            assert_eq!(held.faults, 1);
        }
    }

    /// The models with perfect marks miss no changed bit; the others do.
    #[test]
    fn two_models_are_perfect() {
        let names: Vec<&str> = perfect_models().map(|model| model.name).collect();
        assert_eq!(names, ["one burst, perfect marks", "one burst, perfect but broad"]);
    }

    /// The window counted holds the burst, and no lower one does.
    #[test]
    fn the_lowest_window_of_a_burst() {
        for reply in round(&mut Random::new(21)) {
            let holds = |window: usize| {
                reply.changed.iter().all(|bit| (window + 1..=window + DEGREE).contains(bit))
            };
            let window = reply.window();
            assert!(holds(window) && (window == 0 || !holds(window - 1)));
        }
    }
}
