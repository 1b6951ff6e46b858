//! The lift table: row k holds each node's ancestor 2^k steps up.

use super::gather;

/// Fills the rows. From the first row that passes the deepest level on, every cell is the root.
pub fn fill(parents: &[u16], root: u16, deepest: u16, lift: &mut [u16]) {
    let n = parents.len();
    let (first, mut rest) = lift.split_at_mut(n);
    first.copy_from_slice(parents);
    let mut last = &*first;
    let mut step = 2;
    while !rest.is_empty() && step < deepest as usize {
        let (row, after) = rest.split_at_mut(n);
        gather(last, last, row);
        (last, rest) = (row, after);
        step *= 2;
    }
    if !rest.is_empty() {
        let (row, after) = rest.split_at_mut(n);
        row.fill(root);
        after
            .chunks_exact_mut(n)
            .for_each(|next| next.copy_from_slice(row));
    }
}

/// Whether the rows of a lent table are right.
pub fn holds(parents: &[u16], root: u16, deepest: u16, lift: &[u16]) -> bool {
    let n = parents.len();
    let (mut last, mut rest) = lift.split_at(n);
    if last != parents {
        return false;
    }
    let mut step = 2;
    while !rest.is_empty() && step < deepest as usize {
        let (row, after) = rest.split_at(n);
        if differs(last, row) != 0 {
            return false;
        }
        (last, rest) = (row, after);
        step *= 2;
    }
    if rest.is_empty() {
        return true;
    }
    let (row, after) = rest.split_at(n);
    row.iter().fold(0, |off, &cell| off | (cell ^ root)) == 0
        && after.chunks_exact(n).all(|next| next == row)
}

/// 0 if the row is made of the one before, four cells at a time.
#[inline(never)]
fn differs(last: &[u16], row: &[u16]) -> u16 {
    let (cells, ups) = (row.chunks_exact(4), last.chunks_exact(4));
    let rest = cells.remainder().iter().zip(ups.remainder());
    let mut off = rest.fold(0, |off, (&cell, &up)| off | (cell ^ last[up as usize]));
    for (cell, up) in cells.zip(ups) {
        off |= cell[0] ^ last[up[0] as usize];
        off |= cell[1] ^ last[up[1] as usize];
        off |= cell[2] ^ last[up[2] as usize];
        off |= cell[3] ^ last[up[3] as usize];
    }
    off
}
