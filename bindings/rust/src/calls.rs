//! The library's calls, one function for each, with every buffer lent by the caller.
//!
//! A call takes slices of any length and content, and refuses what it cannot answer: the first test that fails gives its number, by the
//! card of [`Refusal`]. [`cells`](crate::cells) gives the exact lengths that it accepts. A question of pairs has two cells for each pair,
//! a trail's two, a list's any number. An answer has [`ANSWER`](crate::cells::ANSWER) cells for each pair, in the question's order: the
//! carrier, the branch towards x, the branch towards y. For a list or a trail it has one, the carrier.
//!
//! `work` is the call's own: what it holds before makes no difference. Afterwards it is all zero, or unchanged after refusals 1 to 3. A
//! refused call changes no other buffer, and an accepted one fills every cell of its answer, its rows, its totals, or the tables that it
//! builds.
//!
//! A call that answers first tests the sheet and compares the tables with it, once whatever the number of its questions. That takes time in
//! proportion to the tables; what is said below of a pair is what a further pair of the same call costs. [`Tree`](crate::Tree) has the
//! figures.

#![allow(clippy::too_many_arguments)] // One for each buffer.

use crate::ffi;
use crate::Refusal;

mod answers;

pub use answers::{list, pairs_by_labels, pairs_by_lifts, pairs_by_tour, trail};

/// The version of the C interface that the archive has which is linked. [`VERSION`](crate::VERSION) is what this crate is written for.
pub fn version() -> u32 {
    // SAFETY: the function takes nothing and returns a number.
    unsafe { ffi::lca_version() }
}

/// Accepts a sheet that is one rooted tree (tests 1 to 7).
pub fn check(parents: &[u16], work: &mut [u16]) -> Result<(), Refusal> {
    let mut value = 0;
    // SAFETY: each pointer and length are one slice's, `work` and `value` overlap nothing, and the call takes any lengths and contents.
    let number = unsafe {
        ffi::lca_check(
            parents.as_ptr(),
            parents.len(),
            work.as_mut_ptr(),
            work.len(),
            &mut value,
        )
    };
    outcome(number, value).map(drop)
}

/// Fills the four tables with the sheet's own (tests 1 to 7).
pub fn build(
    parents: &[u16],
    label: &mut [u16],
    tour: &mut [u16],
    lift: &mut [u16],
    order: &mut [u16],
    work: &mut [u16],
) -> Result<(), Refusal> {
    let mut value = 0;
    // SAFETY: as in `check`; the tables too are lent for writing, so they overlap nothing.
    let number = unsafe {
        ffi::lca_build(
            parents.as_ptr(),
            parents.len(),
            label.as_mut_ptr(),
            label.len(),
            tour.as_mut_ptr(),
            tour.len(),
            lift.as_mut_ptr(),
            lift.len(),
            order.as_mut_ptr(),
            order.len(),
            work.as_mut_ptr(),
            work.len(),
            &mut value,
        )
    };
    outcome(number, value).map(drop)
}

/// Accepts tables that are the sheet's own in every cell (tests 1 to 8).
pub fn compare(
    parents: &[u16],
    label: &[u16],
    tour: &[u16],
    lift: &[u16],
    order: &[u16],
    work: &mut [u16],
) -> Result<(), Refusal> {
    let mut value = 0;
    // SAFETY: as in `check`; the tables are only read, so they may overlap one another and the sheet.
    let number = unsafe {
        ffi::lca_compare(
            parents.as_ptr(),
            parents.len(),
            label.as_ptr(),
            label.len(),
            tour.as_ptr(),
            tour.len(),
            lift.as_ptr(),
            lift.len(),
            order.as_ptr(),
            order.len(),
            work.as_mut_ptr(),
            work.len(),
            &mut value,
        )
    };
    outcome(number, value).map(drop)
}

/// The subtree of a part (tests 1 to 8, and 10 of the part, at 0): the parts that it carries, in preorder and itself first. They are cells of
/// `order` itself, never a copy.
pub fn subtree<'a>(
    parents: &[u16],
    label: &[u16],
    tour: &[u16],
    lift: &[u16],
    order: &'a [u16],
    work: &mut [u16],
    part: usize,
) -> Result<&'a [u16], Refusal> {
    let (mut start, mut value) = (0, 0);
    // SAFETY: as in `compare`; `start` and `value` overlap nothing.
    let number = unsafe {
        ffi::lca_subtree(
            parents.as_ptr(),
            parents.len(),
            label.as_ptr(),
            label.len(),
            tour.as_ptr(),
            tour.len(),
            lift.as_ptr(),
            lift.len(),
            order.as_ptr(),
            order.len(),
            work.as_mut_ptr(),
            work.len(),
            part,
            &mut start,
            &mut value,
        )
    };
    let count = outcome(number, value)?;
    Ok(&order[start as usize..][..count as usize])
}

/// Wear by assembly (tests 1 to 7): fills `totals` with each part's total, the sum of the counts of all parts that it carries. Of the root
/// that is the sum of all counts. It is lent no tables, and what `totals` held before makes no difference.
pub fn totals(
    parents: &[u16],
    work: &mut [u16],
    counts: &[u32],
    totals: &mut [u64],
) -> Result<(), Refusal> {
    let mut value = 0;
    // SAFETY: as in `check`; the counts are only read, and `totals` is lent for writing, so it overlaps nothing.
    let number = unsafe {
        ffi::lca_totals(
            parents.as_ptr(),
            parents.len(),
            work.as_mut_ptr(),
            work.len(),
            counts.as_ptr(),
            counts.len(),
            totals.as_mut_ptr(),
            totals.len(),
            &mut value,
        )
    };
    outcome(number, value).map(drop)
}

/// The C function's result and what it left in `value`, told apart.
fn outcome(number: u32, value: u64) -> Result<u64, Refusal> {
    if number == 0 {
        Ok(value)
    } else {
        Err(Refusal {
            number,
            place: value,
        })
    }
}

#[cfg(test)]
mod tests;
