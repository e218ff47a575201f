//! The subcommand `limit`: what the density limit costs. Writes a table in
//! Markdown and one picture for each message length, from a fixed seed.

use crate::picture::picture;
use crate::random::Random;
use crate::simulate::{Counts, Model, Row, CHANGED, REPLY_SHARE, REPLY_SPAN};
use std::fmt::Write;
use std::path::Path;

/// Replies for each model and length.
const REPLIES: u64 = 1_000_000;

const SEED: u64 = 48;

const fn model(name: &'static str, second_burst: f64, marks: [f64; 3]) -> Model {
    let [miss, near, elsewhere] = marks;
    Model { name, second_burst, miss, near, elsewhere }
}

/// The models, with the chances of a missed mark, of a mark on a good bit near
/// the burst, and of one elsewhere. In the first two no changed bit is missed:
/// with one burst, 'sole' then has to mean 'as sent'.
pub const MODELS: [Model; 6] = [
    model("one burst, perfect marks", 0.0, [0.0, 0.3, 0.01]),
    model("one burst, perfect but broad", 0.0, [0.0, 0.6, 0.1]),
    model("one burst, marks that miss", 0.0, [0.02, 0.3, 0.01]),
    model("one burst, broad and missing", 0.0, [0.02, 0.6, 0.1]),
    model("second burst in one of four", 0.25, [0.02, 0.3, 0.01]),
    model("second burst in one of two", 0.5, [0.02, 0.3, 0.01]),
];

/// The numbers of a model on the command line, in percent.
const NUMBERS: [&str; 4] = ["second", "missed", "near", "elsewhere"];

/// A model of the user's own, from `second=25 missed=2 near=30 elsewhere=1`, in
/// percent, each given once, in any order.
pub fn own_model(arguments: &[&str]) -> Result<Model, String> {
    let mut given = [None; NUMBERS.len()];
    for argument in arguments {
        let wrong = || format!("{argument} is not one of {NUMBERS:?} with = and 0 to 100");
        let (name, value) = argument.split_once('=').ok_or_else(wrong)?;
        let place = NUMBERS.iter().position(|known| *known == name).ok_or_else(wrong)?;
        let percent: f64 = value.parse().map_err(|_| wrong())?;
        if !(0.0..=100.0).contains(&percent) {
            return Err(wrong());
        }
        if given[place].replace(percent / 100.0).is_some() {
            return Err(format!("{name} is given twice"));
        }
    }
    let [Some(second), Some(miss), Some(near), Some(elsewhere)] = given else {
        return Err(format!("a model has all of {NUMBERS:?}"));
    };
    Ok(model("your own numbers", second, [miss, near, elsewhere]))
}

/// The rows of a model under all limits, from 0 to 24. With perfect marks and
/// one burst nothing may be wrong and sole, without a fit, or clean.
fn rows(model: &Model, counts: &Counts) -> Vec<Row> {
    let rows: Vec<Row> = (0..=24).map(|limit| counts.under(limit)).collect();
    if model.is_perfect() {
        for row in &rows {
            assert_eq!(row.sole_wrong, 0, "wrong and sole under perfect marks");
            assert_eq!(row.no_fit, 0, "no fit under perfect marks");
            assert_eq!(row.clean, 0, "a single burst is never clean");
        }
    }
    rows
}

/// A chance in percent, with as many digits as it needs, up to four.
pub fn percent(chance: f64) -> String {
    let text = format!("{:.4}", 100.0 * chance);
    text.trim_end_matches('0').trim_end_matches('.').to_string()
}

/// The model in words, for the head of the file.
fn head() -> String {
    let percent = percent(REPLY_SHARE);
    format!(
        "<!-- Made by `crosscheck limit`, seed {SEED}: {REPLIES} replies for each table. -->

The model. A reply is sealed for its word and hit by a burst. The burst spans {REPLY_SPAN} bits in
{percent} % of the replies (an older transponder's reply) and 1 to 24 bits, each length equally
often, in the others. It lies anywhere in the message, each place equally often. Each bit of its
span is changed with probability {CHANGED}, at least one is: every reply here was hit, and none
arrived as it was sent. A second burst, where there is one, is drawn in the same way; a bit that both
change is as sent, and two that undo each other are drawn anew. The marks: a changed bit lacks its low mark with probability *missed*; a good bit inside the
span of a burst has one with probability *near*, a good bit elsewhere with probability *elsewhere*.

Each row counts what the sensor says to the {REPLIES} replies under the limit L. *as sent, sole* is
a reply corrected to what was sent; *wrong, sole* one that was corrected to something else and is
marked sole all the same; *several* is corrected by the lowest window's fit and marked doubtful, and
*of them wrong* counts how often that fit was not what had been sent; *clean* is a changed reply that
carries the word all the same, which no sensor can notice.
"
    )
}

fn table(n: usize, model: &Model, counts: &Counts, rows: &[Row]) -> String {
    let mut text = format!(
        "\n### {n} bits: {}\n\n\
         missed {} %, near {} %, elsewhere {} %; second burst in {} % of the replies\n\n\
         | L | as sent, sole | wrong, sole | several | of them wrong | no fit | dense | clean |\n\
         |--:|--:|--:|--:|--:|--:|--:|--:|\n",
        model.name,
        percent(model.miss),
        percent(model.near),
        percent(model.elsewhere),
        percent(model.second_burst)
    );
    for (limit, row) in rows.iter().enumerate() {
        let _ = writeln!(
            text,
            "| {limit} | {} | {} | {} | {} | {} | {} | {} |",
            row.sole_as_sent,
            row.sole_wrong,
            row.several_as_sent + row.several_wrong,
            row.several_wrong,
            row.no_fit,
            row.dense,
            row.clean
        );
    }
    let _ = writeln!(
        text,
        "\nOf the {} wrong corrections marked several, {} differ from the change by (x + 1)·G at some place.",
        rows[24].several_wrong, counts.several_by_lone_bit
    );
    text
}

fn write(folder: &Path, name: &str, text: &str) -> Result<(), String> {
    let path = folder.join(name);
    std::fs::write(&path, text).map_err(|error| format!("{}: {error}", path.display()))?;
    println!("{}", path.display());
    Ok(())
}

/// Simulates models at both lengths and writes table and pictures, with names
/// that begin so. Each model has its own seed, from the first one's.
fn write_all(folder: &Path, begin: &str, seed: u64, models: &[Model]) -> Result<(), String> {
    std::fs::create_dir_all(folder).map_err(|error| format!("{}: {error}", folder.display()))?;
    let mut tables = head();
    for n in [56, 112] {
        let mut results = Vec::new();
        for (index, model) in models.iter().enumerate() {
            let mut random = Random::new(seed + 100 * n as u64 + index as u64);
            let counts = Counts::simulate(n, model, REPLIES, &mut random);
            let rows = rows(model, &counts);
            tables += &table(n, model, &counts, &rows);
            results.push((model, rows));
        }
        write(folder, &format!("{begin}-{n}.svg"), &picture(n, REPLIES, &results))?;
    }
    write(folder, &format!("{begin}-table.md"), &tables)
}

/// The models of docs/LIMIT.md.
pub fn limit(folder: &Path) -> Result<(), String> {
    write_all(folder, "limit", SEED, &MODELS)
}

/// A model of the user's own, under other file names.
pub fn limit_of_own(folder: &Path, arguments: &[&str]) -> Result<(), String> {
    write_all(folder, "own", SEED, &[own_model(arguments)?])
}

#[cfg(test)]
mod tests {
    use super::*;

    #[test]
    fn numbers_of_a_model() {
        let model =
            own_model(&["near=30", "second=25", "missed=0.5", "elsewhere=1"]).expect("a model");
        assert_eq!((model.second_burst, model.miss), (0.25, 0.005));
        assert_eq!((model.near, model.elsewhere), (0.3, 0.01));
        assert_eq!(percent(model.miss), "0.5");
        assert_eq!(percent(0.3), "30");
        assert_eq!(percent(0.0), "0");
    }

    #[test]
    fn numbers_that_are_none() {
        let whole = ["second=0", "missed=0", "near=0", "elsewhere=0"];
        assert!(own_model(&whole).is_ok());
        assert!(own_model(&whole[1..]).is_err());
        for wrong in
            ["second", "second=", "second=-1", "second=101", "second=NaN", "third=0", "missed=0"]
        {
            assert!(own_model(&[wrong, whole[1], whole[2], whole[3]]).is_err(), "{wrong}");
        }
    }
}
