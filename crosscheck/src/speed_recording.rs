//! The subcommand `speed recording RECORDING`: how many lines a second the built program
//! answers, beside the program written for speed, on a recording of a million replies.

use crate::fast_sift;
use crate::run::{first_difference, run, Feed, TemporaryFile};
use crate::speed::{beside, median, seconds, sift_input};
use crate::text::lines;
use std::path::Path;

const REPLIES: usize = 1_000_000;

/// The runs of each program.
const RUNS: usize = 11;

/// The lines that `speed` has for `sift`, over and over.
fn million() -> Vec<u8> {
    let input = sift_input();
    let mut recording = Vec::new();
    for line in lines(&input).into_iter().cycle().take(REPLIES) {
        recording.extend_from_slice(line);
        recording.push(b'\n');
    }
    recording
}

/// Measures both and prints the table. They have to answer rightly first.
pub fn speed(recording: &Path) -> Result<(), String> {
    let fast = beside("fast_recording")?;
    let input = million();
    let expected = fast_sift::answers(&input);
    for program in [recording, &fast] {
        let output = run(program, &input, Feed::File)?;
        if let Some(difference) = first_difference(&input, &expected, &output) {
            return Err(format!("{}: {difference}", program.display()));
        }
    }
    let file = TemporaryFile::new(&input)?;
    let mut times = [(); 2].map(|()| Vec::with_capacity(RUNS));
    for _ in 0..RUNS {
        times[0].push(seconds(recording, &file)?);
        times[1].push(seconds(&fast, &file)?);
    }
    let [built, fast] = times.map(median);
    println!("Medians of {RUNS} runs on {REPLIES} replies, {} bytes.\n", input.len());
    println!("| program | seconds | lines a second |");
    println!("|---|--:|--:|");
    println!("| recording | {built:.3} | {:.0} |", REPLIES as f64 / built);
    println!("| fast_recording | {fast:.3} | {:.0} |", REPLIES as f64 / fast);
    Ok(())
}
