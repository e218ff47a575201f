//! The command line: see `USAGE`.

mod compare;
mod inputs;
mod library;
mod packing;
mod speed;

use std::process::ExitCode;

const USAGE: &str = "\
crosscheck-c compare   compare a million calls of the C library with crosscheck's own implementation
crosscheck-c speed     measure mode_s_remainders, mode_s_seal_reply and mode_s_correct against Rust that was written for speed
";

fn main() -> ExitCode {
    let arguments: Vec<String> = std::env::args().skip(1).collect();
    let right = match arguments.iter().map(String::as_str).collect::<Vec<&str>>()[..] {
        ["compare"] => compare::compare(),
        ["speed"] => speed::speed(),
        _ => {
            eprint!("{USAGE}");
            false
        }
    };
    if right {
        ExitCode::SUCCESS
    } else {
        ExitCode::FAILURE
    }
}
