//! Asks the shift's questions of examples/cutterhead.in from Rust: docs/EXAMPLE.md.

use lca::{Refusal, Tree};

/// The entry of a line `(part V (in P))`.
fn entry(line: &str) -> Option<u16> {
    let (_, entry) = line.strip_prefix("(part ")?.split_once(" (in ")?;
    entry.strip_suffix("))")?.parse().ok()
}

fn main() -> Result<(), Refusal> {
    let sheet: Vec<u16> = include_str!("../../cutterhead.in")
        .lines()
        .filter_map(entry)
        .collect();
    let tree = Tree::new(&sheet)?;
    println!("{} parts", tree.len());

    for worn in [&[63, 64, 66, 67][..], &[50, 58, 71, 86, 91]] {
        println!("{worn:?}: carrier {}", tree.list(worn)?);
    }
    // By which saddles the bad arm carries two of its worn cutters.
    let worn = tree.pair(63, 64)?;
    println!(
        "63 and 64: carrier {}, by {} and {}",
        worn.carrier, worn.x_branch, worn.y_branch
    );
    // All that hangs below the bad arm, as it stands in the tree's own order table.
    println!("3 carries {:?}", tree.subtree(3)?);

    let trail = tree.trail(63, 21)?;
    println!(
        "63 and 21: carrier {}, lifts {}, rows {:?}",
        trail.carrier,
        trail.lifts(),
        trail.rows
    );
    if let Err(refusal) = tree.carrier(64, 92) {
        println!("64 and 92: {refusal}");
    }
    Ok(())
}
