//! The library's calls once more, in safe Rust: the same tests in the same order, the same tables, the same effect on every buffer, and
//! nothing shared with the proved code. Written for speed. No call allocates; all scratch is the lent `work`.
#![forbid(unsafe_code)]
#![allow(clippy::too_many_arguments)] // One for each buffer.

pub mod by_labels;
pub mod by_lifts;
pub mod by_tour;
mod certify;
mod check;
mod label;
mod lift;
mod locate;
mod order;
mod routes;
pub mod stretch;
mod totals;
mod tour;

pub use routes::{list, pairs_by_labels, pairs_by_lifts, pairs_by_tour, subtree, trail};
pub use totals::totals;

/// The most parts of a sheet.
pub const MOST: usize = 16_384;
/// A cell that holds nothing.
pub const NO_CELL: u16 = 65_535;
/// Cells of a trail.
pub const TRAIL_CELLS: usize = 64;

/// Number and place of the first test that failed.
#[derive(Clone, Copy, Debug, PartialEq, Eq)]
pub struct Refusal {
    pub number: u32,
    pub place: u64,
}

pub(crate) fn refuse<T>(number: u32, place: usize) -> Result<T, Refusal> {
    Err(Refusal {
        number,
        place: place as u64,
    })
}

/// Log to base 2, rounded down; 0 for 0.
#[inline(always)]
pub(crate) fn log2(x: usize) -> usize {
    (usize::BITS - 1 - (x | 1).leading_zeros()) as usize
}

/// All ones, or none: a choice by masks becomes vector code, where `if` becomes a jump or a load from a chosen address.
#[inline(always)]
pub(crate) fn mask(yes: bool) -> u16 {
    (yes as u16).wrapping_neg()
}

/// `to[i] = from[at[i]]`, four at a time.
pub(crate) fn gather(from: &[u16], at: &[u16], to: &mut [u16]) {
    let (mut cells, mut places) = (to.chunks_exact_mut(4), at.chunks_exact(4));
    for (cell, place) in (&mut cells).zip(&mut places) {
        cell[0] = from[place[0] as usize];
        cell[1] = from[place[1] as usize];
        cell[2] = from[place[2] as usize];
        cell[3] = from[place[3] as usize];
    }
    for (cell, &place) in cells.into_remainder().iter_mut().zip(places.remainder()) {
        *cell = from[place as usize];
    }
}

/// The exact lengths of label, tour, lift and work for n parts.
#[inline]
pub(crate) fn lengths(n: usize) -> [usize; 4] {
    let visits = 2 * n - 1;
    [
        6 * n,
        visits * (log2(visits) + 2) + n,
        n * (log2(n) + 1),
        4 * n,
    ]
}

/// Tests 1 and 2, and what test 3 asks of the count.
pub(crate) fn count(parents: &[u16]) -> Result<usize, Refusal> {
    match parents.len() {
        0 => refuse(1, 0),
        n if n > MOST => refuse(2, 0),
        n => Ok(n),
    }
}

/// The order table's number. Those of question, answer and trail are lower.
const ORDER: usize = 8;

/// Tests 1 to 3 for a sheet with tables and work; `further` is the lowest buffer of question, answer and trail that misfits.
pub(crate) fn fits(
    parents: &[u16],
    tables: [&[u16]; 4],
    work: &[u16],
    further: Option<usize>,
) -> Result<usize, Refusal> {
    let n = count(parents)?;
    let [label, tour, lift, order] = tables.map(<[u16]>::len);
    let mut lent = lengths(n).into_iter().zip([label, tour, lift, work.len()]);
    let lower = lent.position(|(wanted, has)| wanted != has);
    let misfit = lower.map(|at| at + 1).or(further);
    match misfit.or((order != n).then_some(ORDER)) {
        Some(buffer) => refuse(3, buffer),
        None => Ok(n),
    }
}

/// Accepts a sheet that is one rooted tree.
pub fn check(parents: &[u16], work: &mut [u16]) -> Result<(), Refusal> {
    let n = count(parents)?;
    if work.len() != 4 * n {
        return refuse(3, 4);
    }
    let outcome = check::root(parents).and_then(|root| check::loops(parents, root, &mut work[..n]));
    work.fill(0);
    outcome
}

/// Fills the four tables with the sheet's own.
pub fn build(
    parents: &[u16],
    label: &mut [u16],
    tour: &mut [u16],
    lift: &mut [u16],
    order: &mut [u16],
    work: &mut [u16],
) -> Result<(), Refusal> {
    let n = fits(parents, [label, tour, lift, order], work, None)?;
    let outcome = check::root(parents).and_then(|root| {
        label::fill(parents, root, label, work)?;
        tour::fill(parents, label, tour, work);
        lift::fill(parents, root, label::deepest(label, n), lift);
        order::fill(&label[..n], order);
        Ok(())
    });
    work.fill(0);
    outcome
}

/// Accepts tables that are the sheet's own in every cell.
pub fn compare(
    parents: &[u16],
    label: &[u16],
    tour: &[u16],
    lift: &[u16],
    order: &[u16],
    work: &mut [u16],
) -> Result<(), Refusal> {
    admit_tables(parents, [label, tour, lift, order], work, None).map(|_| ())
}

/// Tests 1 to 8, and work is cleared; `further` as in `fits`. Gives the count of parts.
pub(crate) fn admit_tables(
    parents: &[u16],
    tables: [&[u16]; 4],
    work: &mut [u16],
    further: Option<usize>,
) -> Result<usize, Refusal> {
    let n = fits(parents, tables, work, further)?;
    let outcome = own(parents, tables, work);
    work.fill(0);
    outcome.map(|()| n)
}

/// Tests 4 to 8; `work` is left as it comes.
fn own(parents: &[u16], tables: [&[u16]; 4], work: &mut [u16]) -> Result<(), Refusal> {
    let root = check::root(parents)?;
    if certify::holds(parents, root, tables, work) {
        return Ok(());
    }
    check::loops(parents, root, &mut work[..parents.len()])?;
    refuse(8, locate::first_difference(parents, root, tables, work))
}
