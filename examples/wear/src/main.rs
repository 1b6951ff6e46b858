//! Wear by assembly, as a morning meeting reads it: docs/EXAMPLE.md.
//!
//! `wear SHEET COUNTS`: SHEET is an input of the program `report`, of which the part lines are read. COUNTS has a line for each part in
//! order: its count, and what it is called.

use std::cmp::Reverse;
use std::error::Error;
use std::{env, fs, iter};

use lca::Tree;

/// The entry of a line `(part V (in P))`.
fn entry(line: &str) -> Option<u16> {
    let (_, entry) = line.strip_prefix("(part ")?.split_once(" (in ")?;
    entry.strip_suffix("))")?.parse().ok()
}

/// The count and the name of a line `COUNT NAME`.
fn worn(line: &str) -> Option<(u32, &str)> {
    let (count, name) = line.split_once(' ')?;
    Some((count.parse().ok()?, name))
}

/// The parts bolted into one, the most worn first.
fn bolted_into(part: usize, tree: &Tree, totals: &[u64]) -> Vec<usize> {
    let entries = tree.parents().iter().map(|&entry| entry as usize);
    let bolted = entries
        .enumerate()
        .filter(|&(v, entry)| entry == part && v != part);
    let mut parts: Vec<usize> = bolted.map(|(v, _)| v).collect();
    parts.sort_by_key(|&v| Reverse(totals[v]));
    parts
}

fn main() -> Result<(), Box<dyn Error>> {
    let files: Vec<String> = env::args().skip(1).collect();
    let [sheet, counts] = &files[..] else {
        return Err("usage: wear SHEET COUNTS".into());
    };
    let (sheet, counts) = (fs::read_to_string(sheet)?, fs::read_to_string(counts)?);
    let sheet: Vec<u16> = sheet.lines().filter_map(entry).collect();
    let (counts, names): (Vec<u32>, Vec<&str>) = counts.lines().filter_map(worn).unzip();
    let tree = Tree::new(&sheet)?;
    let totals = tree.totals(&counts)?;

    let called = |part: usize| format!("{} {part}", names[part]);
    println!("assembly          wear  most worn of what is bolted into it");
    let head = tree.order()[0] as usize;
    for part in iter::once(head).chain(bolted_into(head, &tree, &totals)) {
        let worst = bolted_into(part, &tree, &totals).first().copied();
        let worst = worst.map(|v| format!("{}: {}", called(v), totals[v]));
        let (name, worst) = (called(part), worst.unwrap_or_default());
        println!("{name:<16}{:>6}  {worst}", totals[part]);
    }
    Ok(())
}
