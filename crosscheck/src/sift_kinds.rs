//! The kinds of lines for `sift` that a run has to meet, and what kinds a line
//! is of.

use crate::blocks::{Aim, INPUTS, MALFORMED};
use crate::poly::*;
use crate::rules::remainder_of_message;
use crate::sensor::*;
use crate::sift::{Judged, Request};
use crate::sift_lines::{defects, LENGTHS, MISSED};
use crate::tally::{Group, Tally};

const ANSWERS: &str = "answers";
const TOGETHER: &str = "rows of the table of refusals that apply together";
const REFUSED_LENGTH: &str = "refused 1, by the bytes of the message";
const REFUSED_PAIR: &str = "refused 2, by the bytes of message and confidence";
const REFUSED_LIMIT: &str = "refused 4, by the limit";
const REFUSED_CLEAN: &str = "refused though the message carries the word, by the row";
const SOLE: &str = "corrected, sole, by length and window";
const SEVERAL: &str = "corrected, several, by length and window";
const HIGHEST_FIT: &str = "corrected, several, by length and the highest window with a fit";
const ONES: &str = "corrected, by length and the number of bits changed";
const DENSE: &str = "dense, by length and window";
const REACHED: &str = "corrected with the densest window just at the limit, by the limit";
const PASSED: &str = "dense by a single mark, by the limit";
const CHANGES: &str = "fits and changes";
const OTHERS: &str = "other cases";
const FIRST_BIT: &str = "the first bit, by length";

const ONE_CHANGE: &str = "sole: one change in several windows";
const EQUAL: &str = "several: equal patterns in two windows";
const LATE: &str = "several: the first two fits are one change";
const MANY: &str = "several: three changes or more";
const MARKED_CLEAN: &str = "clean with more marks than the limit";
const ZERO: &str = "limit with a leading zero";
const WORD_ZERO: &str = "corrected for the word 000000";

const WRONG_CLEAN: &str = "wrong, and clean";
const WRONG_DENSE: &str = "wrong, and dense";
const WRONG_NO_FIT: &str = "wrong, and no fit though marked bits of a window would carry the word";
const WRONG_MENDED: &str = "wrong, and mended";
const NONE_LEFT: &str = "right, and no fit: the only change would invert it";
const NOW_SOLE: &str = "right, and sole: another change would invert it";
const WINDOW_MOVED: &str =
    "right, and corrected in a later window: in an earlier one the change would invert it";

const FIRST_BITS: [&str; 7] =
    [WRONG_CLEAN, WRONG_DENSE, WRONG_NO_FIT, WRONG_MENDED, NONE_LEFT, NOW_SOLE, WINDOW_MOVED];

fn by_window(first: usize, last_but: usize) -> Vec<String> {
    let windows = |n: usize| (first..=n - DEGREE - last_but).map(move |w| format!("{n}: {w}"));
    LENGTHS.into_iter().flat_map(windows).collect()
}

fn answers() -> Vec<String> {
    let mut kinds = Vec::new();
    for n in LENGTHS {
        for answer in ["clean", "dense", "nofit", "corrected sole", "corrected several"] {
            kinds.push(format!("{answer}, {n} bits"));
        }
    }
    kinds.extend(["refused 1", "refused 2", "refused 4", "malformed"].map(String::from));
    kinds
}

fn first_bits() -> [String; 2] {
    ["corrected, 56 bits, the first a 1", "corrected, 112 bits, the first a 0"].map(String::from)
}

/// All groups, with the kinds that a run has to meet.
pub fn groups(special: &[&'static str]) -> Vec<Group> {
    let wrong = |right: usize| (1..=14).filter(move |k| *k != right);
    let pairs = [7, 14].into_iter().flat_map(|m| wrong(m).map(move |c| format!("{m} and {c}")));
    let ones = LENGTHS.into_iter().flat_map(|n| (1..=24).map(move |k| format!("{n}: {k}")));
    let mut others = vec![MARKED_CLEAN.to_string(), ZERO.to_string(), WORD_ZERO.to_string()];
    others.extend(first_bits());
    vec![
        Group::each(ANSWERS, answers()),
        Group::each(TOGETHER, ["1, 2", "1, 4", "2, 4", "1, 2, 4"]),
        Group::each(REFUSED_CLEAN, [2, 4]),
        Group::summed(REFUSED_LENGTH, wrong(7).filter(|k| *k != 14)),
        Group::summed(REFUSED_PAIR, pairs),
        Group::summed(REFUSED_LIMIT, 25..=99),
        Group::summed(SOLE, by_window(0, 0)),
        Group::summed(SEVERAL, by_window(0, 1)),
        // two changes of which one is in window 0 and the other in window 1 differ in
        // the first bit, so one of them is no fit
        Group::summed(HIGHEST_FIT, by_window(2, 0)),
        Group::summed(ONES, ones),
        Group::summed(DENSE, by_window(0, 0)),
        Group::summed(REACHED, 1..=24),
        Group::summed(PASSED, 0..=23),
        Group::each(CHANGES, [ONE_CHANGE, EQUAL, LATE, MANY]),
        Group::each(MISSED, LENGTHS),
        Group::each(
            FIRST_BIT,
            LENGTHS.into_iter().flat_map(|n| FIRST_BITS.map(|kind| format!("{n}: {kind}"))),
        ),
        Group::each(OTHERS, others),
        Group::each(MALFORMED, defects().iter().map(|defect| defect.0)),
        Group::each(INPUTS, special),
    ]
}

/// The answer's word in `sift`'s output.
fn answer_word(judged: &Judged) -> &'static str {
    judged.as_ref().map_or("malformed", |(_, verdict)| verdict.answer.word())
}

/// Counts a line under all kinds that it is of.
pub fn count(tally: &mut Tally, line: &[u8], judged: &Judged, aim: Option<&Aim>) {
    if let Some(aim) = aim {
        if aim.answer.is_none_or(|answer| answer == answer_word(judged)) {
            tally.add(aim.group, &aim.kind);
        }
    }
    let Some((request, verdict)) = judged else {
        tally.add(ANSWERS, "malformed");
        return;
    };
    let n = 8 * request.message.len();
    let low = bits_of_bytes(&request.confidence);
    match verdict.answer {
        Answer::Refused(row) => count_refused(tally, request, row),
        Answer::Clean => {
            tally.add(ANSWERS, format!("clean, {n} bits"));
            if densest(&low) > request.limit as usize {
                tally.add(OTHERS, MARKED_CLEAN);
            }
        }
        Answer::Dense { window } => {
            tally.add(ANSWERS, format!("dense, {n} bits"));
            tally.add(DENSE, format!("{n}: {window}"));
            if densest(&low) == request.limit as usize + 1 {
                tally.add(PASSED, request.limit);
            }
        }
        Answer::NoFit => tally.add(ANSWERS, format!("nofit, {n} bits")),
        Answer::Corrected { .. } => count_corrected(tally, request, verdict),
    }
    count_others(tally, line, request, verdict);
    count_first_bit(tally, request, verdict);
}

fn count_first_bit(tally: &mut Tally, request: &Request, verdict: &Verdict) {
    let n = 8 * request.message.len();
    let Verdict { answer, fits, left_out, .. } = verdict;
    if matches!(answer, Answer::Refused(_)) {
        return;
    }
    let right = first_bit_agrees(&bits_of_bytes(&request.message));
    let mut add = |kind: &str| tally.add(FIRST_BIT, format!("{n}: {kind}"));
    match answer {
        Answer::Clean if !right => add(WRONG_CLEAN),
        Answer::Dense { .. } if !right => add(WRONG_DENSE),
        Answer::NoFit if !left_out.is_empty() => add(if right { NONE_LEFT } else { WRONG_NO_FIT }),
        Answer::Corrected { .. } if !right => add(WRONG_MENDED),
        Answer::Corrected { mark, window, .. } if !left_out.is_empty() => {
            if *mark == Mark::Sole && left_out.iter().any(|fit| fit.bits != fits[0].bits) {
                add(NOW_SOLE);
            }
            if left_out[0].window < *window {
                add(WINDOW_MOVED);
            }
        }
        _ => (),
    }
}

fn count_refused(tally: &mut Tally, request: &Request, row: u8) {
    tally.add(ANSWERS, format!("refused {row}"));
    let (message, confidence) = (&request.message, &request.confidence);
    let rows = sensor_rows(message, confidence, request.word, request.limit);
    if rows.len() > 1 {
        let numbers: Vec<String> = rows.iter().map(u8::to_string).collect();
        tally.add(TOGETHER, numbers.join(", "));
    }
    match row {
        1 => tally.add(REFUSED_LENGTH, message.len()),
        2 => tally.add(REFUSED_PAIR, format!("{} and {}", message.len(), confidence.len())),
        _ => tally.add(REFUSED_LIMIT, request.limit),
    }
    if row > 1 && remainder_of_message(message) == request.word {
        tally.add(REFUSED_CLEAN, row);
    }
}

fn count_corrected(tally: &mut Tally, request: &Request, verdict: &Verdict) {
    let Answer::Corrected { window, ones, mark } = verdict.answer else {
        return;
    };
    let n = 8 * request.message.len();
    let last = verdict.fits[verdict.fits.len() - 1].window;
    if mark == Mark::Sole {
        tally.add(ANSWERS, format!("corrected sole, {n} bits"));
        tally.add(SOLE, format!("{n}: {window}"));
    } else {
        tally.add(ANSWERS, format!("corrected several, {n} bits"));
        tally.add(SEVERAL, format!("{n}: {window}"));
        tally.add(HIGHEST_FIT, format!("{n}: {last}"));
    }
    tally.add(ONES, format!("{n}: {ones}"));
    if densest(&bits_of_bytes(&request.confidence)) == request.limit as usize {
        tally.add(REACHED, request.limit);
    }
    count_changes(tally, &verdict.fits, mark);
}

fn count_changes(tally: &mut Tally, fits: &[Fit], mark: Mark) {
    if mark == Mark::Sole {
        if fits.len() > 1 {
            tally.add(CHANGES, ONE_CHANGE);
        }
        return;
    }
    if has_equal_patterns(fits) {
        tally.add(CHANGES, EQUAL);
    }
    if fits[0].bits == fits[1].bits {
        tally.add(CHANGES, LATE);
    }
    let mut changes: Vec<&Vec<usize>> = fits.iter().map(|fit| &fit.bits).collect();
    changes.dedup();
    if changes.len() > 2 {
        tally.add(CHANGES, MANY);
    }
}

/// Do two windows hold one 24-bit pattern? A change in a higher window lies at
/// other message bits then.
fn has_equal_patterns(fits: &[Fit]) -> bool {
    let pattern = |fit: &Fit| -> Vec<usize> { fit.bits.iter().map(|b| b - fit.window).collect() };
    let patterns: Vec<Vec<usize>> = fits.iter().map(pattern).collect();
    (1..patterns.len()).any(|k| patterns[..k].contains(&patterns[k]))
}

fn count_others(tally: &mut Tally, line: &[u8], request: &Request, verdict: &Verdict) {
    let limit = line.rsplit(|byte| *byte == b' ').next().unwrap_or(b"");
    if limit.len() == 2 && limit[0] == b'0' {
        tally.add(OTHERS, ZERO);
    }
    let corrected = matches!(verdict.answer, Answer::Corrected { .. });
    if corrected && request.word == 0 {
        tally.add(OTHERS, WORD_ZERO);
    }
    let [short, long] = first_bits();
    match request.message.len() {
        7 if corrected && request.message[0] >= 0x80 => tally.add(OTHERS, short),
        14 if corrected && request.message[0] < 0x80 => tally.add(OTHERS, long),
        _ => (),
    }
}
