//! The subcommand `speed tally TALLY SIFT`: what `tally` takes beside `sift`, on
//! the input that `speed` has for `sift`. Both run as processes on the same files,
//! in turn.

use crate::run::{first_difference, run, Feed, TemporaryFile};
use crate::speed::{median, seconds, sift_input, RUNS};
use crate::{shift_report, sift, text};
use std::path::Path;

/// Measures both and prints the table. They have to answer rightly first.
pub fn speed(tally: &Path, sift: &Path) -> Result<(), String> {
    let input = sift_input();
    for (program, expected) in [(tally, shift_report::output(&input)), (sift, sift::output(&input))]
    {
        let output = run(program, &input, Feed::File)?;
        if let Some(difference) = first_difference(&input, &expected, &output) {
            return Err(format!("{}: {difference}", program.display()));
        }
    }
    let empty = TemporaryFile::new(b"")?;
    let full = TemporaryFile::new(&input)?;
    let turns = [(tally, &empty), (tally, &full), (sift, &empty), (sift, &full)];
    let mut times = [(); 4].map(|()| Vec::with_capacity(RUNS));
    for _ in 0..RUNS {
        for (times, (program, file)) in times.iter_mut().zip(turns) {
            times.push(seconds(program, file)?);
        }
    }
    let [tally_empty, tally_full, sift_empty, sift_full] = times.map(|times| 1e6 * median(times));
    println!("Medians of {RUNS} runs in microseconds, on {} lines.\n", text::lines(&input).len());
    println!("| program | empty | full |");
    println!("|---|--:|--:|");
    println!("| tally | {tally_empty:.0} | {tally_full:.0} |");
    println!("| sift | {sift_empty:.0} | {sift_full:.0} |");
    Ok(())
}
