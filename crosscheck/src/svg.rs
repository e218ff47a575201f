//! A few shapes written as SVG text.

use std::fmt::Write;

pub struct Svg {
    width: f64,
    height: f64,
    body: String,
}

/// Where a text is held by its point.
#[derive(Clone, Copy)]
pub enum Anchor {
    Start,
    Middle,
    End,
}

/// How the points of a line look, so that two lines differ in more than colour.
#[derive(Clone, Copy)]
pub enum Mark {
    /// Filled, on a whole line.
    Dot,
    /// Hollow, on a dashed line.
    Square,
}

pub type Point = (f64, f64);

fn points(points: &[Point]) -> String {
    let texts: Vec<String> = points.iter().map(|(x, y)| format!("{x:.1},{y:.1}")).collect();
    texts.join(" ")
}

impl Svg {
    pub fn new(width: f64, height: f64) -> Svg {
        Svg { width, height, body: String::new() }
    }

    fn push(&mut self, element: String) {
        let _ = writeln!(self.body, "{element}");
    }

    pub fn rectangle(&mut self, at: Point, width: f64, height: f64, fill: &str) {
        let (x, y) = at;
        self.push(format!(
            r#"<rect x="{x:.1}" y="{y:.1}" width="{width:.1}" height="{height:.1}" fill="{fill}"/>"#
        ));
    }

    pub fn line(&mut self, from: Point, to: Point, stroke: &str) {
        let ((x1, y1), (x2, y2)) = (from, to);
        self.push(format!(
            r#"<line x1="{x1:.1}" y1="{y1:.1}" x2="{x2:.1}" y2="{y2:.1}" stroke="{stroke}"/>"#
        ));
    }

    pub fn polygon(&mut self, corners: &[Point], fill: &str) {
        self.push(format!(r#"<polygon points="{}" fill="{fill}"/>"#, points(corners)));
    }

    pub fn polyline(&mut self, corners: &[Point], stroke: &str, mark: Mark) {
        let dashes = match mark {
            Mark::Dot => "",
            Mark::Square => r#" stroke-dasharray="5 3""#,
        };
        self.push(format!(
            r#"<polyline points="{}" fill="none" stroke="{stroke}" stroke-width="2"{dashes}/>"#,
            points(corners)
        ));
    }

    pub fn mark(&mut self, at: Point, colour: &str, mark: Mark) {
        let (x, y) = at;
        self.push(match mark {
            Mark::Dot => format!(r#"<circle cx="{x:.1}" cy="{y:.1}" r="3" fill="{colour}"/>"#),
            Mark::Square => format!(
                r##"<rect x="{:.1}" y="{:.1}" width="5" height="5" fill="#ffffff" stroke="{colour}" stroke-width="1.5"/>"##,
                x - 2.5,
                y - 2.5
            ),
        });
    }

    pub fn text(&mut self, at: Point, size: u32, anchor: Anchor, text: &str) {
        let anchor = match anchor {
            Anchor::Start => "start",
            Anchor::Middle => "middle",
            Anchor::End => "end",
        };
        let text = text.replace('&', "&amp;").replace('<', "&lt;");
        self.push(format!(
            r##"<text x="{:.1}" y="{:.1}" font-size="{size}" text-anchor="{anchor}" fill="#222222">{text}</text>"##,
            at.0, at.1
        ));
    }

    /// The whole file, on white.
    pub fn finish(self, title: &str) -> String {
        let (width, height) = (self.width, self.height);
        format!(
            r##"<svg xmlns="http://www.w3.org/2000/svg" width="{width}" height="{height}" viewBox="0 0 {width} {height}" font-family="sans-serif">
<title>{title}</title>
<rect width="{width}" height="{height}" fill="#ffffff"/>
{}</svg>
"##,
            self.body
        )
    }
}
