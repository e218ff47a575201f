//! The subcommand `compare`: makes lines, has the reference and the built
//! program answer them, compares byte for byte, counts the kinds; and holds the
//! built `sift` to sealed replies that a burst has hit.

use crate::blocks::{pack, special_blocks, Aim, Block, Made, INPUTS};
use crate::random::Random;
use crate::run::{first_difference, run_and_hear, Written};
use crate::tally::Tally;
use crate::text::MOST_BYTES;
use crate::{
    altitude_lines, antennas_lines, calls, calls_kinds, calls_lines, fast_calls, fast_sift,
    hit_replies, selftest,
};
use crate::{elm, elm_kinds, elm_lines, recording, sender_lines};
use crate::{roster, roster_kinds, roster_lines, shift_report, sift, sift_kinds, sift_lines};
use std::path::Path;
use std::time::Instant;

/// Each program gets at least this many lines made in rounds.
const LEAST_LINES: usize = 200_000;

/// Rounds of lines go on until every kind is met, but not for ever.
const MOST_ROUNDS: usize = 1000;

/// So many rounds are packed into inputs together.
const ROUNDS_TOGETHER: usize = 10;

const SEED: u64 = 0x01FF_F409;

/// The expected output of an input whose lines were made for these aims; the
/// lines are counted in the tally.
type Expected = fn(&mut Tally, &[u8], &[Option<Aim>]) -> Vec<u8>;

/// What belongs to one of the programs.
struct Subject {
    name: &'static str,
    any_line: fn(&mut Random) -> Vec<u8>,
    /// Lines that one time is enough for.
    once: fn(&mut Random) -> Vec<Made>,
    round: fn(&mut Random) -> Vec<Made>,
    groups: fn(&[&'static str]) -> Vec<crate::tally::Group>,
    expected: Expected,
    /// An input above 65,536 bytes is too long for it.
    limited: bool,
    /// What the program written for speed answers wrongly.
    fast_difference: fn(&[u8], &[u8]) -> Option<String>,
}

const SIFT: Subject = Subject {
    name: "sift",
    any_line: sift_lines::any_line,
    once: |_| Vec::new(),
    round: sift_lines::round,
    groups: sift_kinds::groups,
    expected: |tally, input, aims| {
        let lines = crate::text::lines(input);
        sift::output_and_show(input, |k, judged| {
            sift_kinds::count(tally, lines[k], judged, aims.get(k).and_then(Option::as_ref));
        })
    },
    limited: true,
    fast_difference: |input, expected| first_difference(input, expected, &fast_sift::output(input)),
};

const CALLS: Subject = Subject {
    name: "calls",
    any_line: calls_lines::any_line,
    once: |random| {
        [altitude_lines::all(random), antennas_lines::all(random)].into_iter().flatten().collect()
    },
    round: calls_lines::round,
    groups: calls_kinds::groups,
    expected: |tally, input, aims| {
        let lines = crate::text::lines(input);
        calls::output_and_show(input, |k, judged| {
            calls_kinds::count(tally, lines[k], judged, aims.get(k).and_then(Option::as_ref));
        })
    },
    limited: true,
    fast_difference: |input, _| {
        let input = selftest::lines_for_fast_calls(input);
        first_difference(&input, &calls::output(&input), &fast_calls::output(&input))
    },
};

const ROSTER: Subject = Subject {
    name: "roster",
    any_line: roster_lines::any_line,
    once: roster_lines::all,
    round: roster_lines::round,
    groups: roster_kinds::groups,
    expected: |tally, input, aims| {
        roster::output_and_show(input, |k, met| {
            roster_kinds::count(tally, met, aims.get(k).and_then(Option::as_ref));
        })
    },
    limited: true,
    fast_difference: |_, _| None,
};

const ELM: Subject = Subject {
    name: "elm",
    any_line: elm_lines::any_line,
    once: sender_lines::once,
    round: elm_lines::round,
    groups: elm_kinds::groups,
    expected: |tally, input, aims| {
        elm::output_and_show(input, |k, met| {
            elm_kinds::count(tally, met, aims.get(k).and_then(Option::as_ref));
        })
    },
    limited: true,
    fast_difference: |_, _| None,
};

/// The group of names of a page, which a run has to have counted all.
const NAMED: &str = "lines counted for a name";

/// The lines are `sift`'s.
const TALLY: Subject = Subject {
    name: "tally",
    any_line: sift_lines::any_line,
    once: |_| Vec::new(),
    round: sift_lines::round,
    groups: |special| {
        let mut groups = sift_kinds::groups(special);
        groups.push(crate::tally::Group::each(NAMED, shift_report::NAMES));
        groups
    },
    expected: |tally, input, aims| {
        let lines = crate::text::lines(input);
        shift_report::output_and_show(input, |k, judged| {
            sift_kinds::count(tally, lines[k], judged, aims.get(k).and_then(Option::as_ref));
            tally.add(NAMED, shift_report::name_of(judged));
        })
    },
    limited: true,
    fast_difference: |_, _| None,
};

/// The lines are `sift`'s, and there may be any number of them.
const RECORDING: Subject = Subject {
    name: "recording",
    any_line: sift_lines::any_line,
    once: |_| Vec::new(),
    round: sift_lines::round,
    groups: |special| {
        let mut groups = sift_kinds::groups(special);
        groups.extend(recording::groups());
        groups
    },
    expected: |tally, input, aims| {
        let lines = crate::text::lines(input);
        sift::answers_and_show(input, |k, judged| {
            sift_kinds::count(tally, lines[k], judged, aims.get(k).and_then(Option::as_ref));
        })
    },
    limited: false,
    fast_difference: |input, expected| {
        first_difference(input, expected, &fast_sift::answers(input))
    },
};

/// The state of the comparison with one program.
struct Comparison<'a> {
    subject: &'a Subject,
    program: &'a Path,
    tally: Tally,
    lines: usize,
    inputs: usize,
    /// The number of inputs answered otherwise, and the first difference.
    differing: usize,
    first: Option<String>,
}

impl Comparison<'_> {
    fn note(&mut self, who: &str, difference: String) {
        self.differing += 1;
        self.first.get_or_insert(format!("{who}: {difference}"));
    }

    /// Compares the answers to one input; false if the program does not run to
    /// its end.
    fn compare(&mut self, block: &Block) -> bool {
        self.inputs += 1;
        let expected = (self.subject.expected)(&mut self.tally, &block.bytes, &block.aims);
        let who = self.program.display().to_string();
        let Written { output, said } = match run_and_hear(self.program, &block.bytes, block.feed) {
            Ok(written) => written,
            Err(error) => {
                self.note(&who, format!("{error} (input of {} bytes)", block.bytes.len()));
                return false;
            }
        };
        // on standard error the program says that an input is too long, and nothing else
        let too_long = self.subject.limited && block.bytes.len() > MOST_BYTES;
        if said.contains("too long") != too_long || said.is_empty() == too_long {
            self.note(&who, format!("said '{said}' of an input of {} bytes", block.bytes.len()));
        }
        if let Some(difference) = first_difference(&block.bytes, &expected, &output) {
            self.note(&who, difference);
        }
        if let Some(difference) = (self.subject.fast_difference)(&block.bytes, &expected) {
            self.note(&format!("fast_{} (ours)", self.subject.name), difference);
        }
        true
    }

    /// Compares the answers to made lines; false if the program does not run to its
    /// end.
    fn compare_lines(&mut self, made: Vec<Made>) -> bool {
        self.lines += made.len();
        pack(made).iter().all(|block| self.compare(block))
    }

    /// Special inputs first, then the lines that are made once, then rounds of lines
    /// until enough are compared and every kind is met. A program that differs gets
    /// no second batch.
    fn compare_all(&mut self, random: &mut Random, special: Vec<(&'static str, Block)>) {
        for (name, block) in special {
            self.tally.add(INPUTS, name);
            if !self.compare(&block) {
                return;
            }
        }
        let once = (self.subject.once)(random);
        let made_once = once.len();
        if !self.compare_lines(once) {
            return;
        }
        for _ in 0..MOST_ROUNDS / ROUNDS_TOGETHER {
            let mut made = Vec::new();
            for _ in 0..ROUNDS_TOGETHER {
                made.extend((self.subject.round)(random));
            }
            let all_ran = self.compare_lines(made);
            let enough = self.lines - made_once >= LEAST_LINES;
            let met = enough && self.tally.missing().is_empty();
            if met || !all_ran || self.differing > 0 {
                return;
            }
        }
    }

    /// Prints the table and what is wrong; true if nothing is.
    fn report(&self, seconds: f64) -> bool {
        println!(
            "{}: {} lines in {} inputs, {seconds:.1} s",
            self.subject.name, self.lines, self.inputs
        );
        println!("{}", self.tally.table());
        if let Some(first) = &self.first {
            println!("{} of {} inputs differ. The first:\n{first}\n", self.differing, self.inputs);
            return false;
        }
        let missing = self.tally.missing();
        for kind in &missing {
            println!("not tried: {kind}");
        }
        missing.is_empty()
    }
}

fn compare_program(subject: &Subject, program: &Path) -> bool {
    compare_program_and(subject, program, |_, _| None)
}

/// What is tried of a program beside whole inputs; the first difference, if there is one.
type Further = fn(&mut Random, &mut Comparison) -> Option<String>;

fn compare_program_and(subject: &Subject, program: &Path, further: Further) -> bool {
    let start = Instant::now();
    let mut random = Random::new(SEED);
    let mut for_lines = Random::new(SEED + 1);
    let special = special_blocks(&mut random, &mut || (subject.any_line)(&mut for_lines));
    let mut names: Vec<&'static str> = special.iter().map(|input| input.0).collect();
    names.dedup();
    let tally = Tally::new((subject.groups)(&names));
    let (lines, inputs, differing) = (0, 0, 0);
    let mut comparison =
        Comparison { subject, program, tally, lines, inputs, differing, first: None };
    if let Some(difference) = further(&mut random, &mut comparison) {
        comparison.note(&program.display().to_string(), difference);
    }
    comparison.compare_all(&mut random, special);
    comparison.report(start.elapsed().as_secs_f64())
}

fn say(equal: bool) {
    println!(
        "{}",
        if equal { "equal, and every kind was tried" } else { "NOT EQUAL, or not all tried" }
    );
}

/// Compares a program that runs the calls of the roll-call table; true if all is
/// right and every kind was tried.
pub fn compare_roster(roster: &Path) -> bool {
    let equal = compare_program(&ROSTER, roster);
    say(equal);
    equal
}

/// Compares a program that receives extended length messages; true if all is right and
/// every kind was tried.
pub fn compare_elm(elm: &Path) -> bool {
    let equal = compare_program(&ELM, elm);
    say(equal);
    equal
}

/// Compares the program that counts `sift`'s answers; true if all is right and
/// every kind was tried.
pub fn compare_tally(tally: &Path) -> bool {
    let equal = compare_program(&TALLY, tally);
    say(equal);
    equal
}

/// Compares the program that answers a recording of any size, whole and cut; true if
/// all is right and every kind was tried.
pub fn compare_recording(recording: &Path) -> bool {
    let equal = compare_program_and(&RECORDING, recording, |random, comparison| {
        recording::cut_all(comparison.program, random, &mut comparison.tally)
    });
    say(equal);
    equal
}

/// Compares both programs, and holds `sift` to what was sent; true if all is
/// right and every kind was tried.
pub fn compare(calls: &Path, sift: &Path) -> Result<bool, String> {
    println!("{}\n", selftest::published_values()?);
    let mut equal = compare_program(&SIFT, sift);
    equal &= hit_replies::hold(sift);
    equal &= compare_program(&CALLS, calls);
    say(equal);
    Ok(equal)
}
