//! The tables on standard output, in markdown.

use std::fmt::Write;

use crate::figures::Sheet;
use crate::sheets::{Shape, SHAPES, SIZES};

/// Three digits and a unit.
fn time(ns: f64) -> String {
    let (value, unit) = match ns.abs() {
        t if t < 1e3 => (ns, "ns"),
        t if t < 1e6 => (ns / 1e3, "µs"),
        _ => (ns / 1e6, "ms"),
    };
    let digits = match value.abs() {
        v if v < 10.0 => 2,
        v if v < 100.0 => 1,
        _ => 0,
    };
    format!("{value:.digits$} {unit}")
}

/// A count with a comma before the last three digits.
pub fn count(n: usize) -> String {
    if n < 1_000 {
        n.to_string()
    } else {
        format!("{},{:03}", n / 1_000, n % 1_000)
    }
}

pub fn row(out: &mut String, cells: &[String]) {
    writeln!(out, "| {} |", cells.join(" | ")).expect("a string takes all");
}

/// Names of columns, of which the first so many hold words.
pub fn head(out: &mut String, names: &[String], words: usize) {
    row(out, names);
    let rule = (0..names.len()).map(|i| if i < words { "---" } else { "---:" }.to_owned());
    row(out, &rule.collect::<Vec<_>>());
}

/// What the columns of `times` say.
pub const LEGEND: &str = "\
Times are of a whole call; of pairs, of a whole call divided by its pairs, and 'each further one' is what a call of 10,000 pairs takes more than one of
100, a pair. A pair's answer is its carrier and both branches, and each call asks for other pairs. Proved: the library through its C interface. Rust: the
independent version. Ratio: proved to Rust, in the same rounds. Beside build: a memory copy of the four tables; beside compare: their byte compare with a
copy; beside pairs, trail and list: the plain climber, which tests nothing. Trail and subtree are of one pair and of one part a call; totals are of all parts,
and lent no tables.
";

/// A row for each size and call; for each of these shapes the proved library, the Rust version, their ratio and what stands beside.
pub fn times(sheets: &[Sheet], shapes: &[Shape]) -> String {
    let mut out = String::new();
    let mut names = vec!["n".to_owned(), "call".to_owned()];
    for shape in shapes {
        let columns = ["proved", "Rust", "ratio", "beside"];
        names.extend(columns.map(|column| format!("{}: {column}", shape.name())));
    }
    head(&mut out, &names, 2);
    for of_size in sheets.chunks(shapes.len()) {
        for i in 0..of_size[0].figures.len() {
            let mut cells = vec![count(of_size[0].n), of_size[0].figures[i].call.clone()];
            for figure in of_size.iter().map(|sheet| &sheet.figures[i]) {
                cells.extend([time(figure.proved), time(figure.rust)]);
                cells.push(format!("{:.2}", figure.ratio));
                cells.push(figure.beside.map_or("".into(), time));
            }
            row(&mut out, &cells);
        }
    }
    out
}

/// The calls whose cost by size is shown, and what it is divided by.
pub const GROWTH: [(usize, &str, &str); 3] = [
    (0, "check", "part"),
    (1, "build", "table cell"),
    (2, "compare", "table cell"),
];

/// Nanoseconds a part or a table cell: proved, Rust, and what stands beside.
pub fn per_unit(sheet: &Sheet, call: usize) -> [Option<f64>; 3] {
    let units = if call == 0 { sheet.n } else { sheet.cells } as f64;
    let figure = &sheet.figures[call];
    [Some(figure.proved), Some(figure.rust), figure.beside].map(|t| t.map(|t| t / units))
}

/// How cost grows: a column for each size.
pub fn growth(sheets: &[Sheet]) -> String {
    let mut out = String::new();
    let mut names = ["call", "sheet", "by"].map(str::to_owned).to_vec();
    names.extend(SIZES.map(|n| format!("n = {}", count(n))));
    head(&mut out, &names, 3);
    for (call, name, unit) in GROWTH {
        let beside = ["", "memory copy", "byte compare"][call];
        for shape in SHAPES {
            let of_shape = || sheets.iter().filter(|sheet| sheet.shape == shape);
            for (by, whose) in ["proved", "Rust", beside].into_iter().enumerate() {
                if whose.is_empty() {
                    continue;
                }
                let what = format!("{name}, ns a {unit}");
                let mut cells = vec![what, shape.name().to_owned(), whose.to_owned()];
                let costs = of_shape().filter_map(|sheet| per_unit(sheet, call)[by]);
                cells.extend(costs.map(|cost| format!("{cost:.3}")));
                row(&mut out, &cells);
            }
        }
    }
    out
}
