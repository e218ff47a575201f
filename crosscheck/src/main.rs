//! The command line: see `USAGE`.

use crosscheck::{
    calls, compare, elm, limit, recording, roster, selftest, shift_report, sift, speed,
    speed_recording, speed_roster, speed_tally,
};
use std::io::{Read, Write};
use std::path::Path;
use std::process::ExitCode;

const USAGE: &str = "\
crosscheck compare CALLS SIFT   compare the built programs with the reference
crosscheck compare ROSTER       the same of a program that runs the calls of the roll-call table
crosscheck compare elm ELM      the same of a program that receives extended length messages
crosscheck compare tally TALLY  the same of the program that counts sift's answers
crosscheck compare recording RECORDING
                                the same of the program that answers a recording of any size, whole and cut
crosscheck limit FOLDER         simulate what the density limit costs; table and pictures
crosscheck limit FOLDER second=P missed=P near=P elsewhere=P
                                the same for one model of your own, each P in percent
crosscheck speed SIFT CALLS     measure the built programs against programs written for speed
crosscheck speed ROSTER         measure a call on the roll-call table beside a map of the standard library
crosscheck speed tally TALLY SIFT
                                measure the program that counts sift's answers beside sift
crosscheck speed recording RECORDING
                                measure a million replies beside a program written for speed
crosscheck selftest             check the reference and the fast programs
crosscheck answer sift|calls|roster|elm|tally|recording
                                answer standard input as the reference does
";

/// Answers standard input as the named program has to.
fn answer(name: &str) -> Result<(), String> {
    let output = match name {
        "sift" => sift::output,
        "calls" => calls::output,
        "roster" => roster::output,
        "elm" => elm::output,
        "tally" => shift_report::output,
        "recording" => recording::output,
        _ => return Err(USAGE.to_string()),
    };
    let mut input = Vec::new();
    std::io::stdin().read_to_end(&mut input).map_err(|error| error.to_string())?;
    std::io::stdout().write_all(&output(&input)).map_err(|error| error.to_string())
}

fn run(arguments: &[&str]) -> Result<bool, String> {
    match arguments {
        ["compare", "elm", elm] => Ok(compare::compare_elm(Path::new(elm))),
        ["compare", "tally", tally] => Ok(compare::compare_tally(Path::new(tally))),
        ["compare", "recording", recording] => Ok(compare::compare_recording(Path::new(recording))),
        ["compare", calls, sift] => compare::compare(Path::new(calls), Path::new(sift)),
        ["compare", roster] => Ok(compare::compare_roster(Path::new(roster))),
        ["limit", folder] => limit::limit(Path::new(folder)).map(|()| true),
        ["limit", folder, numbers @ ..] => {
            limit::limit_of_own(Path::new(folder), numbers).map(|()| true)
        }
        ["speed", "tally", tally, sift] => {
            speed_tally::speed(Path::new(tally), Path::new(sift)).map(|()| true)
        }
        ["speed", "recording", recording] => {
            speed_recording::speed(Path::new(recording)).map(|()| true)
        }
        ["speed", sift, calls] => speed::speed(Path::new(sift), Path::new(calls)).map(|()| true),
        ["speed", roster] => speed_roster::speed(Path::new(roster)).map(|()| true),
        ["selftest"] => selftest::run_all().map(|()| true),
        ["answer", name] => answer(name).map(|()| true),
        _ => Err(USAGE.to_string()),
    }
}

fn main() -> ExitCode {
    let arguments: Vec<String> = std::env::args().skip(1).collect();
    let arguments: Vec<&str> = arguments.iter().map(String::as_str).collect();
    match run(&arguments) {
        Ok(true) => ExitCode::SUCCESS,
        Ok(false) => ExitCode::FAILURE,
        Err(message) => {
            eprintln!("{message}");
            ExitCode::FAILURE
        }
    }
}
