//! The picture of what the limit costs: for each model a panel with the shares
//! of all answers, and below it the rare ones on a logarithmic scale. Three
//! models stand side by side.
//!
//! The colours are Okabe and Ito's, which colour-blind readers can tell apart,
//! and grey; the two lines of the lower panels differ in their marks too.

use crate::limit::percent;
use crate::simulate::{Model, Row};
use crate::svg::{Anchor, Mark, Point, Svg};

const PANEL: f64 = 250.0;
const GAP: f64 = 30.0;
const LEFT: f64 = 78.0;
const ACROSS: usize = 3;

/// Heights from the top of the picture, and within a band of three models.
const HEAD: f64 = 74.0;
const SHARES_TOP: f64 = 84.0;
const SHARES_HEIGHT: f64 = 190.0;
const RARE_TOP: f64 = 366.0;
const RARE_HEIGHT: f64 = 150.0;
const BAND: f64 = 574.0;
const FOOT: f64 = 44.0;

const GREEN: &str = "#009E73";
const VERMILLION: &str = "#D55E00";
const BLUE: &str = "#0072B2";
const SKY: &str = "#56B4E9";
const GREY: &str = "#D9D9D9";

/// The limits that ATC-48 names.
const NAMED: (usize, usize) = (4, 14);

/// A count of a row: its name in the legend, its colour, its value.
type Share = (&'static str, &'static str, fn(&Row) -> u64);

/// The shares from the bottom up; with `clean` they make up the whole.
const SHARES: [Share; 5] = [
    ("as sent and sole", GREEN, |row| row.sole_as_sent),
    ("wrong and sole", VERMILLION, |row| row.sole_wrong),
    ("several", BLUE, |row| row.several_as_sent + row.several_wrong),
    ("no fit", SKY, |row| row.no_fit),
    ("dense", GREY, |row| row.dense),
];

/// The counts of the lower panels.
const RARE: [(Share, Mark); 2] = [(SHARES[2], Mark::Square), (SHARES[1], Mark::Dot)];

/// Where a panel stands: its left end, and the top of its band.
#[derive(Clone, Copy)]
struct Panel {
    left: f64,
    top: f64,
    labelled: bool,
}

impl Panel {
    fn new(index: usize) -> Panel {
        let (row, column) = (index / ACROSS, index % ACROSS);
        Panel {
            left: LEFT + column as f64 * (PANEL + GAP),
            top: HEAD + row as f64 * BAND,
            labelled: column == 0,
        }
    }

    /// The left end of the step of a limit.
    fn step(self, limit: usize) -> f64 {
        self.left + PANEL * limit as f64 / 25.0
    }

    fn middle(self, limit: usize) -> f64 {
        self.left + PANEL * (limit as f64 + 0.5) / 25.0
    }
}

/// The picture for one message length.
pub fn picture(n: usize, replies: u64, results: &[(&Model, Vec<Row>)]) -> String {
    let width = LEFT + ACROSS as f64 * (PANEL + GAP);
    let height = HEAD + results.len().div_ceil(ACROSS) as f64 * BAND + FOOT;
    let mut svg = Svg::new(width, height);
    let title = format!("What the density limit costs, replies of {n} bits, every one of them hit");
    svg.text((LEFT, 28.0), 18, Anchor::Start, &title);
    legend(&mut svg);
    for (index, (model, rows)) in results.iter().enumerate() {
        let panel = Panel::new(index);
        heading(&mut svg, panel, model);
        shares(&mut svg, panel, rows, replies);
        rare(&mut svg, panel, rows, replies);
    }
    let foot = [
        format!(
            "{} million replies a panel. L: the most low marks that a window may have; ATC-48 names {} to {}.",
            replies / 1_000_000,
            NAMED.0,
            NAMED.1
        ),
        "Missed: changed bits without a mark. Near, elsewhere: good bits with one, inside a burst and outside it."
            .to_string(),
    ];
    for (line, text) in foot.iter().enumerate() {
        let y = height - FOOT + 8.0 + 18.0 * line as f64;
        svg.text((LEFT, y), 12, Anchor::Start, text);
    }
    svg.finish(&title)
}

fn legend(svg: &mut Svg) {
    let mut x = LEFT;
    for (name, colour, _) in SHARES {
        svg.rectangle((x, 42.0), 14.0, 14.0, colour);
        svg.text((x + 20.0, 54.0), 13, Anchor::Start, name);
        x += 48.0 + 7.5 * name.len() as f64;
    }
}

fn heading(svg: &mut Svg, panel: Panel, model: &Model) {
    svg.text((panel.left, panel.top + 22.0), 14, Anchor::Start, model.name);
    let marks = format!(
        "missed {} %, near {} %, elsewhere {} %",
        percent(model.miss),
        percent(model.near),
        percent(model.elsewhere)
    );
    svg.text((panel.left, panel.top + 38.0), 11, Anchor::Start, &marks);
    let second = format!("second burst in {} % of the replies", percent(model.second_burst));
    svg.text((panel.left, panel.top + 53.0), 11, Anchor::Start, &second);
}

/// The axis of the limits below a panel.
fn limits(svg: &mut Svg, panel: Panel, bottom: f64) {
    for limit in (0..=24).step_by(2) {
        let label = limit.to_string();
        svg.text((panel.middle(limit), bottom + 15.0), 10, Anchor::Middle, &label);
    }
    svg.text((panel.left + PANEL / 2.0, bottom + 31.0), 12, Anchor::Middle, "limit L");
}

/// The limits that ATC-48 names, between two lines and under a bar.
fn named(svg: &mut Svg, panel: Panel, top: f64, bottom: f64) {
    let (from, to) = (panel.step(NAMED.0), panel.step(NAMED.1 + 1));
    svg.rectangle((from, top - 5.0), to - from, 4.0, "#222222");
    for x in [from, to] {
        svg.line((x, top - 5.0), (x, bottom), "#222222");
    }
    let label = format!("ATC-48: {} to {}", NAMED.0, NAMED.1);
    svg.text(((from + to) / 2.0, top - 9.0), 10, Anchor::Middle, &label);
}

/// Stacked shares, a step for each limit.
fn shares(svg: &mut Svg, panel: Panel, rows: &[Row], replies: u64) {
    let top = panel.top + SHARES_TOP;
    let bottom = top + SHARES_HEIGHT;
    let height = |count: u64| bottom - SHARES_HEIGHT * count as f64 / replies as f64;
    let mut below = vec![0; rows.len()];
    for (_, colour, value) in SHARES {
        let above: Vec<u64> = rows.iter().zip(&below).map(|(row, b)| b + value(row)).collect();
        let stairs = |counts: &[u64]| -> Vec<Point> {
            let ends = |(limit, count): (usize, &u64)| {
                let y = height(*count);
                [(panel.step(limit), y), (panel.step(limit + 1), y)]
            };
            counts.iter().enumerate().flat_map(ends).collect()
        };
        let mut corners = stairs(&above);
        corners.extend(stairs(&below).into_iter().rev());
        svg.polygon(&corners, colour);
        below = above;
    }
    if panel.labelled {
        for percent in [0, 25, 50, 75, 100] {
            let y = height(replies * percent / 100) + 4.0;
            svg.text((panel.left - 8.0, y), 11, Anchor::End, &format!("{percent} %"));
        }
    }
    named(svg, panel, top, bottom);
    limits(svg, panel, bottom);
}

/// The height of a count in a million on the logarithmic scale.
fn rare_height(panel: Panel, per_million: f64) -> f64 {
    let bottom = panel.top + RARE_TOP + RARE_HEIGHT;
    bottom - RARE_HEIGHT * per_million.log10().max(0.0) / 6.0
}

/// The rare answers on a logarithmic scale; a count of 0 is not drawn.
fn rare(svg: &mut Svg, panel: Panel, rows: &[Row], replies: u64) {
    rare_scale(svg, panel);
    named(svg, panel, panel.top + RARE_TOP, panel.top + RARE_TOP + RARE_HEIGHT);
    for ((name, colour, value), mark) in RARE {
        let height = |row: &Row| rare_height(panel, value(row) as f64 * 1e6 / replies as f64);
        let drawn: Vec<Point> = rows
            .iter()
            .enumerate()
            .filter(|(_, row)| value(row) > 0)
            .map(|(limit, row)| (panel.middle(limit), height(row)))
            .collect();
        svg.polyline(&drawn, colour, mark);
        for point in &drawn {
            svg.mark(*point, colour, mark);
        }
        if drawn.is_empty() {
            let at = (panel.step(NAMED.0) + 3.0, panel.top + RARE_TOP + 18.0);
            svg.text(at, 10, Anchor::Start, &format!("{name}: none"));
        }
    }
    limits(svg, panel, panel.top + RARE_TOP + RARE_HEIGHT);
}

fn rare_scale(svg: &mut Svg, panel: Panel) {
    for power in 0..=6 {
        let y = rare_height(panel, 10f64.powi(power));
        svg.line((panel.left, y), (panel.left + PANEL, y), "#e4e4e4");
        if panel.labelled {
            let labels = ["1", "10", "100", "1 000", "10 000", "100 000", "1 000 000"];
            svg.text((panel.left - 8.0, y + 4.0), 11, Anchor::End, labels[power as usize]);
        }
    }
    let legend = panel.top + RARE_TOP - 26.0;
    let scale = "in a million replies, log scale";
    svg.text((panel.left, legend - 16.0), 11, Anchor::Start, scale);
    let mut x = panel.left + 4.0;
    for ((name, colour, _), mark) in RARE {
        svg.mark((x, legend - 4.0), colour, mark);
        svg.text((x + 8.0, legend), 11, Anchor::Start, name);
        x += 32.0 + 6.0 * name.len() as f64;
    }
}
