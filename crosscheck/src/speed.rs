//! The subcommand `speed`: the built programs against programs written for
//! speed, as processes on the same files. The time of an empty input is taken
//! off, so that starting a process does not count.

use crate::blocks::Made;
use crate::random::Random;
use crate::run::{first_difference, run, Feed, TemporaryFile};
use crate::text::{hex, lines, MOST_BYTES};
use crate::{calls, fast_calls, fast_sift, sift, sift_lines};
use std::path::{Path, PathBuf};
use std::process::{Command, Stdio};
use std::time::Instant;

/// The runs of each program on each file; medians are taken.
pub(crate) const RUNS: usize = 401;

const SEED: u64 = 112;

/// One measurement: two programs, a reference, and an input.
struct Race<'a> {
    name: &'static str,
    built: &'a Path,
    fast: &'a Path,
    input: Vec<u8>,
    expected: Vec<u8>,
}

/// As many of the lines as go into one input.
fn full_input(made: Vec<Vec<u8>>) -> Vec<u8> {
    let mut input = Vec::new();
    for line in made {
        if input.len() + line.len() + 1 > MOST_BYTES {
            break;
        }
        input.extend(line);
        input.push(b'\n');
    }
    input
}

/// Lines of 112 bits: half clean, a quarter corrected, an eighth dense, an
/// eighth without a fit, in a random order, of the sorts that `compare` makes.
pub fn sift_input() -> Vec<u8> {
    let mut random = Random::new(SEED);
    let count = MOST_BYTES / 64;
    let mut wanted = vec![("clean", count / 2), ("corrected", count / 4)];
    wanted.extend([("dense", count / 8), ("nofit", count / 8)]);
    let mut chosen: Vec<Vec<u8>> = Vec::new();
    while wanted.iter().any(|(_, left)| *left > 0) {
        for Made { text, .. } in sift_lines::round(&mut random) {
            let answer = answer_of_long(&text);
            let place = wanted.iter().position(|(word, left)| *word == answer && *left > 0);
            if let Some(place) = place {
                wanted[place].1 -= 1;
                chosen.push(text);
            }
        }
    }
    random.shuffle(&mut chosen);
    full_input(chosen)
}

/// The answer to a line whose message has 112 bits; nothing for other lines.
fn answer_of_long(line: &[u8]) -> String {
    match sift::judge(line) {
        Some((request, verdict)) if request.message.len() == 14 => {
            let text = sift::print(1, &Some((request, verdict)));
            text.split(' ').nth(1).unwrap_or("").to_string()
        }
        _ => String::new(),
    }
}

/// Lines of one way to R on long fields.
fn field_input(way: &str) -> Vec<u8> {
    let mut random = Random::new(SEED);
    let line = |_| format!("{way} {}", hex(&random.bytes(11))).into_bytes();
    full_input((0..MOST_BYTES / 28).map(line).collect())
}

/// The seconds a program takes for a file.
pub(crate) fn seconds(program: &Path, file: &TemporaryFile) -> Result<f64, String> {
    let input = file.open()?;
    let start = Instant::now();
    let status = Command::new(program)
        .stdin(Stdio::from(input))
        .stdout(Stdio::null())
        .status()
        .map_err(|error| format!("{}: {error}", program.display()))?;
    let seconds = start.elapsed().as_secs_f64();
    if status.success() {
        Ok(seconds)
    } else {
        Err(format!("{} ended with {status}", program.display()))
    }
}

pub(crate) fn median(mut values: Vec<f64>) -> f64 {
    values.sort_by(f64::total_cmp);
    values[values.len() / 2]
}

/// Both programs have to answer rightly before their time counts.
fn answers_rightly(race: &Race, program: &Path) -> Result<(), String> {
    let output = run(program, &race.input, Feed::File)?;
    match first_difference(&race.input, &race.expected, &output) {
        None => Ok(()),
        Some(difference) => Err(format!("{}: {difference}", program.display())),
    }
}

/// Runs both programs in turn on the empty file and on the full one, and
/// writes a line of the table.
fn measure(race: &Race) -> Result<String, String> {
    answers_rightly(race, race.built)?;
    answers_rightly(race, race.fast)?;
    let empty = TemporaryFile::new(b"")?;
    let full = TemporaryFile::new(&race.input)?;
    let turns =
        [(race.built, &empty), (race.built, &full), (race.fast, &empty), (race.fast, &full)];
    let mut times = [(); 4].map(|()| Vec::with_capacity(RUNS));
    for _ in 0..RUNS {
        for (times, (program, file)) in times.iter_mut().zip(turns) {
            times.push(seconds(program, file)?);
        }
    }
    let [built_empty, built_full, fast_empty, fast_full] = times.map(|times| 1e6 * median(times));
    let (built, fast) = (built_full - built_empty, fast_full - fast_empty);
    Ok(format!(
        "| {} | {} | {built_empty:.0} | {built_full:.0} | {fast_empty:.0} | {fast_full:.0} | {:.2} |",
        race.name,
        lines(&race.input).len(),
        built / fast
    ))
}

/// A program of this package: it stands beside the running one.
pub(crate) fn beside(name: &str) -> Result<PathBuf, String> {
    let own = std::env::current_exe().map_err(|error| error.to_string())?;
    let path = own.with_file_name(name);
    if path.exists() {
        Ok(path)
    } else {
        Err(format!("{} is not there: run cargo build --release --offline", path.display()))
    }
}

/// Measures all and prints the table.
pub fn speed(sift_program: &Path, calls_program: &Path) -> Result<(), String> {
    let (quick_sift, quick_calls) = (beside("fast_sift")?, beside("fast_calls")?);
    let input = sift_input();
    let expected = sift::output(&input);
    assert_eq!(expected, fast_sift::output(&input));
    let name = "sift, 112-bit lines";
    let mut races = vec![Race { name, built: sift_program, fast: &quick_sift, input, expected }];
    let ways = [("calls, bits", "bits"), ("calls, bytes", "bytes"), ("calls, rows", "rows")];
    for (name, way) in ways {
        let input = field_input(way);
        let expected = calls::output(&input);
        assert_eq!(expected, fast_calls::output(&input));
        races.push(Race { name, built: calls_program, fast: &quick_calls, input, expected });
    }
    println!("Medians of {RUNS} runs in microseconds; the ratio is of full less empty.\n");
    println!("| input | lines | built, empty | built, full | fast, empty | fast, full | ratio |");
    println!("|---|--:|--:|--:|--:|--:|--:|");
    for race in &races {
        println!("{}", measure(race)?);
    }
    Ok(())
}

#[cfg(test)]
mod tests {
    use super::*;

    #[test]
    fn the_inputs_are_as_said() {
        let input = sift_input();
        assert!(input.len() <= MOST_BYTES && input.len() > MOST_BYTES - 80);
        let answers: Vec<String> = lines(&input).into_iter().map(answer_of_long).collect();
        let share = |word: &str| {
            let count = answers.iter().filter(|answer| *answer == word).count();
            (16.0 * count as f64 / answers.len() as f64).round() as usize
        };
        assert_eq!(
            [share("clean"), share("corrected"), share("dense"), share("nofit")],
            [8, 4, 2, 2]
        );
        for way in ["bits", "bytes", "rows"] {
            let input = field_input(way);
            assert!(input.len() <= MOST_BYTES && input.len() > MOST_BYTES - 40);
        }
    }
}
