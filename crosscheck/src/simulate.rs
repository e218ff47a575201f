//! Replies that are sealed, hit and marked by chance, and what the sensor makes
//! of them under every density limit at once.
//!
//! Division is linear, so the reply itself does not matter: the changed bits
//! alone have the syndrome as their remainder. Whole bit strings are numbers
//! here, bit n of the message as the lowest binary digit. For each window the
//! system for its 24 bits is solved once for every syndrome bit, and the
//! solutions are added up (`Solver`).

use crate::poly::{remainder_of_power, DEGREE, GENERATOR_POWERS};
use crate::random::Random;
use crate::solve::eliminate;

/// A way that replies are hit and marked.
pub struct Model {
    pub name: &'static str,
    /// The share of replies that a second burst hits too.
    pub second_burst: f64,
    /// The chance that a changed bit is not marked low.
    pub miss: f64,
    /// The chance that a good bit inside a burst's span is marked low.
    pub near: f64,
    /// The chance that a good bit elsewhere is marked low.
    pub elsewhere: f64,
}

impl Model {
    /// One burst, and a low mark on every bit that it changes.
    pub fn is_perfect(&self) -> bool {
        self.miss == 0.0 && self.second_burst == 0.0
    }
}

/// The chance that a bit inside a burst's span is changed.
pub const CHANGED: f64 = 0.3;

/// The span of an older transponder's reply in message bits: its framing pulses
/// are 20.3 microseconds apart and 0.45 wide, and a bit takes one (ATC-117, 1.2).
pub const REPLY_SPAN: usize = 22;

/// The share of bursts that have that span; the others have 1 to 24 bits.
pub const REPLY_SHARE: f64 = 0.5;

/// A reply as it arrives: the bits that were changed, and the low marks.
pub struct Hit {
    pub changed: u128,
    pub low: u128,
}

/// What the sensor says when no window is too dense.
#[derive(Clone, Copy, PartialEq, Eq, Debug)]
pub enum Outcome {
    Clean,
    NoFit,
    SoleAsSent,
    SoleWrong,
    SeveralAsSent,
    SeveralWrong,
}

/// The span of a burst and the bits it changes, one or more.
fn burst(random: &mut Random, n: usize) -> (u128, u128) {
    let length = if random.chance(REPLY_SHARE) { REPLY_SPAN } else { random.from_to(1, DEGREE) };
    let place = random.from_to(0, n - length);
    let mut changed = 0u128;
    while changed == 0 {
        for k in 0..length {
            changed |= u128::from(random.chance(CHANGED)) << (place + k);
        }
    }
    (((1u128 << length) - 1) << place, changed)
}

/// The spans of one or two bursts and the bits they change, one or more: where
/// two bursts change one bit it is as sent again, and two that undo each other
/// are drawn anew.
fn bursts(random: &mut Random, n: usize, second: f64) -> (u128, u128) {
    loop {
        let (mut span, mut changed) = burst(random, n);
        if random.chance(second) {
            let (other_span, other) = burst(random, n);
            span |= other_span;
            changed ^= other;
        }
        if changed != 0 {
            return (span, changed);
        }
    }
}

/// A reply hit and marked as the model says.
pub fn hit(random: &mut Random, n: usize, model: &Model) -> Hit {
    let (span, changed) = bursts(random, n, model.second_burst);
    let mut low = 0;
    for place in 0..n {
        let bit = 1u128 << place;
        let chance = if changed & bit != 0 {
            1.0 - model.miss
        } else if span & bit != 0 {
            model.near
        } else {
            model.elsewhere
        };
        if random.chance(chance) {
            low |= bit;
        }
    }
    Hit { changed, low }
}

/// The pattern of each window for each syndrome, summed from three tables.
pub struct Solver {
    windows: Vec<[[u32; 256]; 3]>,
}

impl Solver {
    /// Solves the windows of an n-bit message, by place: the last window first.
    pub fn new(n: usize) -> Solver {
        Solver { windows: (0..=n - DEGREE).map(tables).collect() }
    }

    /// The only pattern with this syndrome in the window `place` bits before the
    /// end of the message.
    fn pattern(&self, place: usize, syndrome: u32) -> u32 {
        let [low, middle, high] = &self.windows[place];
        low[syndrome as usize & 255]
            ^ middle[syndrome as usize >> 8 & 255]
            ^ high[syndrome as usize >> 16]
    }

    /// All changes that fit, the lowest window's first, each once. The reply was
    /// sealed, so its first bit agreed with its length: a change has to restore it.
    fn changes(&self, hit: &Hit, syndrome: u32) -> Vec<u128> {
        let first_bit = self.windows.len() + DEGREE - 2;
        let mut changes = Vec::new();
        for place in (0..self.windows.len()).rev() {
            let pattern = self.pattern(place, syndrome);
            let change = u128::from(pattern) << place;
            let marked = u128::from(pattern) & !(hit.low >> place) == 0;
            let restored = (hit.changed ^ change) >> first_bit & 1 == 0;
            if marked && restored && changes.last() != Some(&change) {
                changes.push(change);
            }
        }
        changes
    }

    /// What the sensor says, and the bits in which the correction differs from the
    /// change: none where it is undone, or nothing is corrected.
    pub fn outcome(&self, hit: &Hit) -> (Outcome, u128) {
        let syndrome = remainder_of(hit.changed);
        if syndrome == 0 {
            return (Outcome::Clean, 0);
        }
        let changes = self.changes(hit, syndrome);
        let wrong = changes.first().map_or(0, |applied| applied ^ hit.changed);
        let outcome = match (changes.as_slice(), wrong) {
            ([], _) => Outcome::NoFit,
            ([_], 0) => Outcome::SoleAsSent,
            ([_], _) => Outcome::SoleWrong,
            (_, 0) => Outcome::SeveralAsSent,
            (_, _) => Outcome::SeveralWrong,
        };
        (outcome, wrong)
    }
}

/// Whether some bits are (x + 1)·G at some place. That multiple of G has only
/// eight ones, and the first stands alone, 13 places before the next.
fn is_lone_bit_multiple(bits: u128) -> bool {
    let multiple = GENERATOR_POWERS.iter().fold(0, |sum, power| sum ^ 0b11 << power);
    bits != 0 && bits >> bits.trailing_zeros() == multiple
}

/// The solutions of one window for every value of each syndrome byte.
fn tables(place: usize) -> [[u32; 256]; 3] {
    let columns: Vec<u32> = (0..DEGREE).map(|k| remainder_of_power(place + k)).collect();
    let solution = |power: usize| -> u32 {
        let chosen = eliminate(&columns, 1 << power).expect("24 independent remainders");
        (0..DEGREE).filter(|k| chosen[*k]).fold(0, |pattern, k| pattern | 1 << k)
    };
    let solutions: Vec<u32> = (0..DEGREE).map(solution).collect();
    let mut tables = [[0; 256]; 3];
    for (byte, table) in tables.iter_mut().enumerate() {
        for (value, entry) in table.iter_mut().enumerate() {
            for bit in (0..8).filter(|bit| value >> bit & 1 == 1) {
                *entry ^= solutions[8 * byte + bit];
            }
        }
    }
    tables
}

/// The remainder of a change: the sum of its bits'.
fn remainder_of(changed: u128) -> u32 {
    let mut rest = changed;
    let mut sum = 0;
    while rest != 0 {
        sum ^= remainder_of_power(rest.trailing_zeros() as usize);
        rest &= rest - 1;
    }
    sum
}

/// The highest number of low marks in a window.
pub fn densest(n: usize, low: u128) -> usize {
    let count = |place: usize| ((low >> place) as u32 & 0xFF_FFFF).count_ones() as usize;
    (0..=n - DEGREE).map(count).max().unwrap_or(0)
}

/// How often each outcome came, by the highest density of the reply.
pub struct Counts {
    by_density: [[u64; 25]; 6],
    /// The wrong corrections marked several that differ from the change by
    /// (x + 1)·G at some place.
    pub several_by_lone_bit: u64,
}

/// The counts under one limit.
#[derive(Debug, Default, Clone, Copy, PartialEq, Eq)]
pub struct Row {
    pub clean: u64,
    pub sole_as_sent: u64,
    pub sole_wrong: u64,
    pub several_as_sent: u64,
    pub several_wrong: u64,
    pub no_fit: u64,
    pub dense: u64,
}

impl Counts {
    /// Hits and judges `replies` replies of n bits.
    pub fn simulate(n: usize, model: &Model, replies: u64, random: &mut Random) -> Counts {
        let solver = Solver::new(n);
        let mut counts = Counts { by_density: [[0; 25]; 6], several_by_lone_bit: 0 };
        for _ in 0..replies {
            let hit = hit(random, n, model);
            let (outcome, wrong) = solver.outcome(&hit);
            counts.by_density[outcome as usize][densest(n, hit.low)] += 1;
            if outcome == Outcome::SeveralWrong && is_lone_bit_multiple(wrong) {
                counts.several_by_lone_bit += 1;
            }
        }
        counts
    }

    /// The counts under a limit: a reply that is not clean and has a denser
    /// window is `dense`.
    pub fn under(&self, limit: usize) -> Row {
        let within =
            |outcome: Outcome| -> u64 { self.by_density[outcome as usize][..=limit].iter().sum() };
        let all: u64 = self.by_density.iter().flatten().sum();
        let clean = self.by_density[Outcome::Clean as usize].iter().sum();
        let mut row = Row {
            clean,
            sole_as_sent: within(Outcome::SoleAsSent),
            sole_wrong: within(Outcome::SoleWrong),
            several_as_sent: within(Outcome::SeveralAsSent),
            several_wrong: within(Outcome::SeveralWrong),
            no_fit: within(Outcome::NoFit),
            dense: 0,
        };
        let sole = row.sole_as_sent + row.sole_wrong;
        let several = row.several_as_sent + row.several_wrong;
        row.dense = all - clean - sole - several - row.no_fit;
        row
    }
}

#[cfg(test)]
mod tests {
    use super::*;
    use crate::poly::{add, bits_of_word, bytes_of_bits, Bits};
    use crate::rules::with_parity;
    use crate::sensor::{sense, Answer, Mark};

    const HARSH: Model =
        Model { name: "harsh", second_burst: 0.3, miss: 0.05, near: 0.6, elsewhere: 0.2 };

    fn bits(number: u128, n: usize) -> Bits {
        (0..n).rev().map(|place| number >> place & 1 == 1).collect()
    }

    /// The reference sensor on a whole sealed reply says the same, for a limit
    /// that lets all pass and for one that does not.
    #[test]
    fn as_the_sensor_judges_whole_replies() {
        let mut random = Random::new(8);
        for n in [56, 112] {
            let solver = Solver::new(n);
            for _ in 0..1500 {
                let hit = hit(&mut random, n, &HARSH);
                let word = random.word();
                let mut field: Bits = (0..n - DEGREE).map(|_| random.one_in(2)).collect();
                field[0] = n == 112;
                let sent = with_parity(&field, word);
                assert_eq!(sent[n - DEGREE..].len(), bits_of_word(word, DEGREE).len());
                let received = bytes_of_bits(&add(&sent, &bits(hit.changed, n)));
                let low = bytes_of_bits(&bits(hit.low, n));
                let verdict = sense(&received, &low, word, 24);
                let as_sent = verdict.message == bytes_of_bits(&sent);
                assert_eq!(solver.outcome(&hit).0, outcome_of(verdict.answer, as_sent));
                let dense = densest(n, hit.low);
                if dense > 0 && verdict.answer != Answer::Clean {
                    let answer = sense(&received, &low, word, dense as u32 - 1).answer;
                    assert!(matches!(answer, Answer::Dense { .. }));
                    assert_eq!(sense(&received, &low, word, dense as u32).answer, verdict.answer);
                }
            }
        }
    }

    fn outcome_of(answer: Answer, as_sent: bool) -> Outcome {
        match answer {
            Answer::Clean => Outcome::Clean,
            Answer::NoFit => Outcome::NoFit,
            Answer::Corrected { mark, .. } => match (mark, as_sent) {
                (Mark::Sole, true) => Outcome::SoleAsSent,
                (Mark::Sole, false) => Outcome::SoleWrong,
                (Mark::Several, true) => Outcome::SeveralAsSent,
                (Mark::Several, false) => Outcome::SeveralWrong,
            },
            other => panic!("{other:?} under the highest limit"),
        }
    }
}
