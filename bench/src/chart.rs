//! The chart: cost a part or table cell against n, a panel for each shape, both axes logarithmic.

use std::fmt::Write;

use crate::figures::Sheet;
use crate::report::{count, per_unit, GROWTH};
use crate::sheets::{SHAPES, SIZES};

const COLOURS: [&str; 3] = ["#1b7f5c", "#b3501e", "#2f5fb3"];
const PANEL: (f64, f64) = (290.0, 300.0);
const LEFT: f64 = 70.0;
const TOP: f64 = 62.0;
const GAP: f64 = 26.0;

/// The y axis: from and to, in nanoseconds.
struct Scale {
    low: f64,
    high: f64,
}

impl Scale {
    /// Powers of ten around all figures.
    fn of(sheets: &[Sheet]) -> Self {
        let all = sheets
            .iter()
            .flat_map(|s| (0..GROWTH.len()).map(|call| per_unit(s, call)));
        let all: Vec<f64> = all.flatten().flatten().collect();
        let (low, high) = all
            .iter()
            .fold((f64::MAX, 0.0f64), |(l, h), &t| (l.min(t), h.max(t)));
        Scale {
            low: 10f64.powf(low.log10().floor()),
            high: 10f64.powf(high.log10().ceil()),
        }
    }

    fn y(&self, cost: f64) -> f64 {
        let part = (cost / self.low).log10() / (self.high / self.low).log10();
        TOP + PANEL.1 * (1.0 - part)
    }
}

fn left_of(panel: usize) -> f64 {
    LEFT + panel as f64 * (PANEL.0 + GAP)
}

fn x(panel: usize, n: usize) -> f64 {
    let (first, last) = (SIZES[0] as f64, SIZES[SIZES.len() - 1] as f64);
    let part = (n as f64 / first).ln() / (last / first).ln();
    left_of(panel) + 16.0 + part * (PANEL.0 - 32.0)
}

fn text(out: &mut String, (x, y): (f64, f64), anchor: &str, size: u32, words: &str) {
    writeln!(
        out,
        r##"<text x="{x:.1}" y="{y:.1}" text-anchor="{anchor}" font-size="{size}" fill="#222">{words}</text>"##
    )
    .expect("a string takes all");
}

fn line(out: &mut String, points: &[(f64, f64)], style: &str) {
    let points: Vec<String> = points
        .iter()
        .map(|(x, y)| format!("{x:.1},{y:.1}"))
        .collect();
    writeln!(
        out,
        r#"<polyline fill="none" {style} points="{}"/>"#,
        points.join(" ")
    )
    .expect("a string takes all");
}

/// Proved solid, Rust dashed, the floor dotted.
fn style(call: usize, by: usize) -> String {
    let dash = [
        "",
        r#" stroke-dasharray="7 4""#,
        r#" stroke-dasharray="2 3""#,
    ][by];
    let width = [2.4, 2.0, 1.4][by];
    format!(r#"stroke="{}" stroke-width="{width}"{dash}"#, COLOURS[call])
}

fn axes(out: &mut String, panel: usize, scale: &Scale) {
    let left = left_of(panel);
    let grid = r##"stroke="#d5d5d5" stroke-width="1""##;
    let mut cost = scale.low;
    while cost <= scale.high * 1.01 {
        let y = scale.y(cost);
        line(out, &[(left, y), (left + PANEL.0, y)], grid);
        if panel == 0 {
            text(
                out,
                (left - 8.0, y + 4.0),
                "end",
                13,
                &format!("{} ns", round(cost)),
            );
        }
        cost *= 10.0;
    }
    for n in SIZES {
        let x = x(panel, n);
        line(out, &[(x, TOP), (x, TOP + PANEL.1)], grid);
        text(out, (x, TOP + PANEL.1 + 18.0), "middle", 13, &count(n));
    }
    let middle = left + PANEL.0 / 2.0;
    text(
        out,
        (middle, TOP - 10.0),
        "middle",
        15,
        SHAPES[panel].name(),
    );
    text(
        out,
        (middle, TOP + PANEL.1 + 36.0),
        "middle",
        13,
        "n, parts of the sheet",
    );
}

/// A power of ten without trailing zeros.
fn round(cost: f64) -> String {
    let text = format!("{cost:.4}");
    text.trim_end_matches('0').trim_end_matches('.').to_owned()
}

fn lines(out: &mut String, panel: usize, scale: &Scale, sheets: &[Sheet]) {
    let of_shape = || sheets.iter().filter(|sheet| sheet.shape == SHAPES[panel]);
    for (call, colour) in COLOURS.into_iter().enumerate() {
        for by in 0..3 {
            let cost = |sheet: &Sheet| per_unit(sheet, call)[by];
            let points = of_shape().filter_map(|s| Some((x(panel, s.n), scale.y(cost(s)?))));
            let points: Vec<(f64, f64)> = points.collect();
            line(out, &points, &style(call, by));
            for (x, y) in points {
                writeln!(
                    out,
                    r#"<circle cx="{x:.1}" cy="{y:.1}" r="2.6" fill="{colour}"/>"#
                )
                .expect("a string takes all");
            }
        }
    }
}

fn key(out: &mut String, top: f64) {
    let beside = ["", "memory copy", "byte compare"];
    for (call, name, unit) in GROWTH {
        let left = left_of(call);
        for (by, whose) in ["proved", "Rust", beside[call]].into_iter().enumerate() {
            if whose.is_empty() {
                continue;
            }
            let y = top + 18.0 * by as f64;
            line(
                out,
                &[(left, y - 4.0), (left + 44.0, y - 4.0)],
                &style(call, by),
            );
            let words = if by == 2 {
                format!("{whose}, a {unit}")
            } else {
                format!("{name}, {whose}, a {unit}")
            };
            text(out, (left + 54.0, y), "start", 13, &words);
        }
    }
}

/// The chart as SVG text.
pub fn svg(sheets: &[Sheet], machine: &str) -> String {
    let width = left_of(SHAPES.len()) - GAP + 16.0;
    let below = TOP + PANEL.1 + 66.0;
    let height = below + 66.0;
    let mut out = format!(
        "<svg xmlns=\"http://www.w3.org/2000/svg\" width=\"{width}\" height=\"{height}\" \
         viewBox=\"0 0 {width} {height}\" font-family=\"sans-serif\">\n\
         <rect width=\"{width}\" height=\"{height}\" fill=\"#fdfdfb\"/>\n"
    );
    let title = "Time a table cell (check: a part), by size and shape of the sheet";
    text(&mut out, (LEFT, 24.0), "start", 17, title);
    let scale = Scale::of(sheets);
    for panel in 0..SHAPES.len() {
        axes(&mut out, panel, &scale);
        lines(&mut out, panel, &scale, sheets);
    }
    key(&mut out, below);
    text(&mut out, (width - 16.0, below + 58.0), "end", 11, machine);
    out + "</svg>\n"
}
