//! A second, independent implementation of the Mode S parity rules, written
//! from the scope paper ("document 01"), the requests made after it ("document
//! 02") and the Lincoln Laboratory reports ATC-40, ATC-48, ATC-49 and ATC-117
//! alone.
//!
//! It exists to disagree: it makes very many input lines for the programs
//! `sift`, `recording`, `tally`, `calls`, `roster` and `elm`, works out by its own means what they have to print,
//! and compares byte for byte.
//!
//! The reference goes by bit lists, division as taught at school, and a
//! search for the pattern in each window:
//! - `poly`: polynomials as bit lists, product and division;
//! - `rules`: the table of refusals, R, the seals, the transponder;
//! - `solve`: which of some remainders add up to a given one;
//! - `sensor`: windows, density, fits, the sensor's answer;
//! - `altitude`: altitude codes, read and written;
//! - `antennas`: the two-antenna transponder;
//! - `text`: what both programs share of their line formats;
//! - `sender`: the sending end of extended length messages, and the game against an interferer;
//! - `sift`, `calls`, `roster`, `elm`: what each program prints for a whole input;
//! - `shift_report`: the same of `tally`, from `sift`'s answer to each line;
//! - `recording`: the same of `recording`, whole and cut into pieces;
//! - `notices`: which changes of few bits, and of two bursts, leave no remainder;
//! - `vectors`: published values that the reference itself has to meet.
//!
//! The comparison:
//! - `random`: a small generator of numbers with a fixed seed;
//! - `defects`: ways to spoil a well-formed line;
//! - `blocks`: lines packed into inputs, and inputs of special sizes;
//! - `sift_lines`, `calls_lines`, `sensor_lines`, `altitude_lines`,
//!   `antennas_lines`, `roster_lines`, `elm_lines`, `sender_lines`: the makers of lines;
//! - `tally`, `sift_kinds`, `calls_kinds`, `sensor_kinds`, `altitude_kinds`,
//!   `antennas_kinds`, `roster_kinds`, `elm_kinds`, `sender_kinds`: what was tried, and what
//!   must be;
//! - `run`: a program as a child process, and the first difference;
//! - `hit_replies`: sealed replies that a burst has hit, and the built `sift` held
//!   to what was sent;
//! - `compare`: the subcommand that puts these together.
//!
//! Beside it:
//! - `simulate`, `svg`, `picture`, `limit`: what the density limit costs;
//! - `fast`, `fast_sift`, `fast_calls`, `speed`: programs written for speed, and the
//!   measurement against them;
//! - `speed_roster`: what a call on the roll-call table costs;
//! - `speed_tally`: what `tally` takes beside `sift`;
//! - `speed_recording`: how many lines a second `recording` answers;
//! - `selftest`: the checks of this program on itself.
//!
//! `c/`, a package of its own, links the C library and compares its calls with the
//! reference.

pub mod altitude;
pub mod altitude_kinds;
pub mod altitude_lines;
pub mod antennas;
pub mod antennas_kinds;
pub mod antennas_lines;
pub mod blocks;
pub mod calls;
pub mod calls_kinds;
pub mod calls_lines;
pub mod compare;
pub mod defects;
pub mod elm;
pub mod elm_kinds;
pub mod elm_lines;
pub mod fast;
pub mod fast_calls;
pub mod fast_sift;
pub mod hit_replies;
pub mod limit;
pub mod notices;
pub mod picture;
pub mod poly;
pub mod random;
pub mod recording;
pub mod roster;
pub mod roster_kinds;
pub mod roster_lines;
pub mod rules;
pub mod run;
pub mod selftest;
pub mod sender;
pub mod sender_kinds;
pub mod sender_lines;
pub mod sensor;
pub mod sensor_kinds;
pub mod sensor_lines;
pub mod shift_report;
pub mod sift;
pub mod sift_kinds;
pub mod sift_lines;
pub mod simulate;
pub mod solve;
pub mod speed;
pub mod speed_recording;
pub mod speed_roster;
pub mod speed_tally;
pub mod svg;
pub mod tally;
pub mod text;
pub mod vectors;
