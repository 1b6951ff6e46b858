//! Wear by assembly: each node's total, the sum of the counts of all nodes that it carries.

use super::label::{children, leaves};
use super::{check, count, refuse, Refusal};

/// Fills the totals from the sheet and the counts.
pub fn totals(
    parents: &[u16],
    work: &mut [u16],
    counts: &[u32],
    totals: &mut [u64],
) -> Result<(), Refusal> {
    let n = count(parents)?;
    let lent = [
        (4, work.len(), 4 * n),
        (9, counts.len(), n),
        (10, totals.len(), n),
    ];
    if let Some((buffer, ..)) = lent.into_iter().find(|(_, has, wanted)| has != wanted) {
        return refuse(3, buffer);
    }
    let outcome = check::root(parents).and_then(|root| fill(parents, root, work, counts, totals));
    work.fill(0);
    outcome
}

/// Test 7, and the totals if it passes. Before that nothing is written to them.
fn fill(
    parents: &[u16],
    root: u16,
    work: &mut [u16],
    counts: &[u32],
    totals: &mut [u64],
) -> Result<(), Refusal> {
    let n = parents.len();
    let (count, rest) = work.split_at_mut(n);
    let (order, rest) = rest.split_at_mut(n);
    let above = &mut rest[..n];
    children(parents, count, above);
    if take_off(parents, [count, order, above]) != n - 1 {
        return check::loops(parents, root, count);
    }
    for (total, &count) in totals.iter_mut().zip(counts) {
        *total = count.into();
    }
    let totals = &mut totals[..n];
    for (&v, &p) in order[..n - 1].iter().zip(&above[..n - 1]) {
        totals[p as usize] += totals[v as usize];
    }
    Ok(())
}

/// Nodes that are taken at a time.
const AT_ONCE: usize = 8;

/// Takes leaves off until there are none: puts the nodes taken into `order`, children before their parent, and each one's parent beside it
/// into `above`. Gives their number, which is all but the root unless there is a loop. `count` has before how many name each node.
///
/// As in `label::peel` a node is put in without a jump. Of nodes in a row that have one parent the count is lowered once for all, so that
/// they need not wait for one another.
fn take_off(parents: &[u16], work: [&mut [u16]; 3]) -> usize {
    let n = parents.len();
    let [count, order, above] = work.map(|part| &mut part[..n]);
    let mut found = leaves(count, order);
    let mut at = 0;
    while at + AT_ONCE < found {
        let run: [u16; AT_ONCE] = std::array::from_fn(|i| parents[order[at + i] as usize]);
        above[at..at + AT_ONCE].copy_from_slice(&run);
        if run.iter().fold(0, |off, &p| off | (p ^ run[0])) == 0 {
            order[found] = run[0];
            found += lower(count, run[0], AT_ONCE) as usize;
        } else {
            for p in run {
                order[found] = p;
                found += lower(count, p, 1) as usize;
            }
        }
        at += AT_ONCE;
    }
    while at + 1 < found {
        let p = parents[order[at] as usize];
        above[at] = p;
        order[found] = p;
        found += lower(count, p, 1) as usize;
        at += 1;
    }
    if at == found {
        return at;
    }
    climb(parents, [count, order, above], at)
}

/// As `take_off`, where the node at `at` is the only one that waits: from then on only its parent can, and no step waits for `order`.
fn climb(parents: &[u16], [count, order, above]: [&mut [u16]; 3], mut at: usize) -> usize {
    let mut v = order[at];
    loop {
        let p = parents[v as usize];
        above[at] = p;
        at += 1;
        if !lower(count, p, 1) {
            return at;
        }
        order[at] = p;
        v = p;
    }
}

/// Lowers what a node counts; whether nothing is left.
#[inline(always)]
fn lower(count: &mut [u16], p: u16, by: usize) -> bool {
    let left = count[p as usize] - by as u16;
    count[p as usize] = left;
    left == 0
}
