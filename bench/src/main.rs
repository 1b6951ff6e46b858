//! Measures the proved library against an independent Rust version of the same calls. README.md says what and how.
#![forbid(unsafe_code)]

mod branches;
mod buffers;
mod candidates;
mod chart;
mod climb;
mod fast;
mod figures;
mod machine;
mod measure;
mod pool;
mod report;
mod selfcheck;
mod sheets;

use std::process::ExitCode;
use std::time::Duration;

use measure::Budget;
use sheets::{Shape, SHAPES, SIZES};

const USAGE: &str = "usage: lca-bench [--quick] [--svg FILE], or lca-bench [--quick] --branches";

struct Options {
    quick: bool,
    branches: bool,
    svg: Option<String>,
}

fn options() -> Result<Options, String> {
    let mut options = Options {
        quick: false,
        branches: false,
        svg: None,
    };
    let mut words = std::env::args().skip(1);
    while let Some(word) = words.next() {
        match word.as_str() {
            "--quick" => options.quick = true,
            "--branches" => options.branches = true,
            "--svg" => options.svg = Some(words.next().ok_or(USAGE)?),
            _ => return Err(USAGE.into()),
        }
    }
    if options.branches && options.svg.is_some() {
        return Err(USAGE.into());
    }
    Ok(options)
}

fn budget(quick: bool) -> Budget {
    let each = Duration::from_millis(if quick { 12 } else { 350 });
    Budget {
        each,
        most_rounds: 2_001,
    }
}

fn run() -> Result<(), String> {
    let options = options()?;
    if options.branches {
        return branches::run(options.quick);
    }
    selfcheck::small(if options.quick { 50 } else { 300 })?;
    let (mut sheets, mut deep) = (Vec::new(), Vec::new());
    for n in SIZES {
        for shape in SHAPES {
            selfcheck::measured(&format!("{} of {n}", shape.name()), &shape.sheet(n))?;
            sheets.push(figures::sheet(budget(options.quick), n, shape));
        }
        selfcheck::measured(&format!("deep of {n}"), &Shape::Deep.sheet(n))?;
        deep.push(figures::pairs(budget(options.quick), n, Shape::Deep));
    }
    let machine = machine::line();
    println!("{machine}\n\n{}", report::LEGEND);
    println!("{}", report::times(&sheets, &SHAPES));
    println!(
        "Pairs on deep sheets:\n\n{}",
        report::times(&deep, &[Shape::Deep])
    );
    print!("{}", report::growth(&sheets));
    match options.svg {
        Some(file) => std::fs::write(&file, chart::svg(&sheets, &machine))
            .map_err(|why| format!("{file}: {why}")),
        None => Ok(()),
    }
}

fn main() -> ExitCode {
    match run() {
        Ok(()) => ExitCode::SUCCESS,
        Err(what) => {
            eprintln!("{what}");
            ExitCode::FAILURE
        }
    }
}
