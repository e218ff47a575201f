//! The number of an answer, from docs/C-INTERFACE.md: the address in bits 63 to
//! 40, the count in 39 to 32, the window in 31 to 24, the mark in 23 to 16, the
//! refusal in 15 to 8, the answer in 7 to 0.

use crosscheck::rules::Heard;
use crosscheck::sensor::{Answer, Mark};

pub const SEALED: u64 = 2;
pub const DIVIDED: u64 = 11;

pub fn refused(row: u8) -> u64 {
    u64::from(row) << 8 | 1
}

pub fn heard(answer: Heard) -> u64 {
    match answer {
        Heard::Refused(row) => refused(row),
        Heard::Own => 3,
        Heard::AllCall => 4,
        Heard::NotOurs(address) => u64::from(address) << 40 | 5,
        Heard::Broadcast => 6,
    }
}

pub fn sensed(answer: Answer) -> u64 {
    match answer {
        Answer::Refused(row) => refused(row),
        Answer::Clean => 7,
        Answer::Dense { window } => (window as u64) << 24 | 8,
        Answer::NoFit => 9,
        Answer::Corrected { window, ones, mark } => {
            let mark = match mark {
                Mark::Sole => 1,
                Mark::Several => 2,
            };
            (ones as u64) << 32 | (window as u64) << 24 | mark << 16 | 10
        }
    }
}
