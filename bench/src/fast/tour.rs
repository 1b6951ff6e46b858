//! The tour table: E, R and the sparse rows.

use super::{gather, label, log2, mask, NO_CELL};

/// E, R and rows of a tour table of n parts.
pub fn sections(tour: &[u16], n: usize) -> [&[u16]; 3] {
    let (e, rest) = tour.split_at(2 * n - 1);
    let (r, rows) = rest.split_at(n);
    [e, r, rows]
}

/// Fills the table from the label table.
pub fn fill(parents: &[u16], label: &[u16], tour: &mut [u16], work: &mut [u16]) {
    let n = parents.len();
    let visits = 2 * n - 1;
    let (e, rest) = tour.split_at_mut(visits);
    let (r, rows) = rest.split_at_mut(n);
    let [pre, size, level, ..] = label::columns(label);
    for ((r, &p), &l) in r.iter_mut().zip(pre).zip(level) {
        *r = first_visit(p, l);
    }
    visit(parents, r, size, e);
    let levels = &mut work[..visits];
    gather(level, e, levels);
    fill_rows(rows, levels);
}

/// R of a node by its PREORDER and LEVEL.
#[inline(always)]
pub fn first_visit(pre: u16, level: u16) -> u16 {
    pre.wrapping_sub(1).wrapping_mul(2).wrapping_sub(level)
}

/// E: a node at its first visit, and its parent after the last visit below the node. The root has no such second visit: it is past the end.
pub fn visit(parents: &[u16], r: &[u16], size: &[u16], e: &mut [u16]) {
    for (v, ((&p, &r), &s)) in parents.iter().zip(r).zip(size).enumerate() {
        let first = r as usize;
        e[first] = v as u16;
        if let Some(cell) = e.get_mut(first + 2 * s as usize - 1) {
            *cell = p;
        }
    }
}

/// Rows 0 to t, each from the one before; `level` holds the levels at the positions of E.
fn fill_rows(rows: &mut [u16], level: &mut [u16]) {
    let visits = level.len();
    let (first, mut rest) = rows.split_at_mut(visits);
    for (i, cell) in first.iter_mut().enumerate() {
        *cell = i as u16;
    }
    let mut last = &*first;
    for j in 1..=log2(visits) {
        let (row, after) = rest.split_at_mut(visits);
        let (cells, none) = row.split_at_mut(visits + 1 - (1 << j));
        join(last, level, 1 << (j - 1), cells);
        none.fill(NO_CELL);
        (last, rest) = (row, after);
    }
}

/// Cells that are taken at a time.
const LANES: usize = 16;

/// A row from the one before: of two blocks side by side the position of lesser level, the left one at equal levels. `level` holds the levels
/// at the positions of the row before, and afterwards those of this row.
#[inline(never)]
fn join(last: &[u16], level: &mut [u16], half: usize, row: &mut [u16]) {
    let m = row.len();
    let (left, right) = (&last[..m], &last[half..half + m]);
    let mut at = 0;
    for ((row, left), right) in row
        .chunks_exact_mut(LANES)
        .zip(left.chunks_exact(LANES))
        .zip(right.chunks_exact(LANES))
    {
        let right_level: [u16; LANES] = level[at + half..at + half + LANES].try_into().unwrap();
        let left_level: &mut [u16; LANES] = (&mut level[at..at + LANES]).try_into().unwrap();
        for i in 0..LANES {
            let (a, b) = (left_level[i] as i16, right_level[i] as i16);
            let (x, y) = (left[i], right[i]);
            row[i] = x ^ ((x ^ y) & mask(b < a));
            left_level[i] = a.min(b) as u16;
        }
        at += LANES;
    }
    for i in at..m {
        let (a, b) = (level[i], level[i + half]);
        row[i] = if b < a { right[i] } else { left[i] };
        level[i] = a.min(b);
    }
}

/// Whether the rows of a lent table are right; `level` holds the levels at the positions of E.
pub fn rows_hold(rows: &[u16], level: &mut [u16]) -> bool {
    let visits = level.len();
    let mut rows = rows.chunks_exact(visits);
    let Some(mut last) = rows.next() else {
        return false;
    };
    let off = last
        .iter()
        .enumerate()
        .fold(0, |off, (i, &cell)| off | (cell ^ i as u16));
    if off != 0 {
        return false;
    }
    for (j, row) in (1..).zip(rows) {
        let (cells, none) = row.split_at(visits + 1 - (1 << j));
        let off = join_differs(last, level, 1 << (j - 1), cells);
        let all = none.iter().fold(NO_CELL, |all, &cell| all & cell);
        if off != 0 || all != NO_CELL {
            return false;
        }
        last = row;
    }
    true
}

/// As `join`, but holds the row to the lent one; 0 if they agree.
#[inline(never)]
fn join_differs(last: &[u16], level: &mut [u16], half: usize, row: &[u16]) -> u16 {
    let m = row.len();
    let (left, right) = (&last[..m], &last[half..half + m]);
    let mut at = 0;
    let mut differ = [0u16; LANES];
    for ((row, left), right) in row
        .chunks_exact(LANES)
        .zip(left.chunks_exact(LANES))
        .zip(right.chunks_exact(LANES))
    {
        let right_level: [u16; LANES] = level[at + half..at + half + LANES].try_into().unwrap();
        let left_level: &mut [u16; LANES] = (&mut level[at..at + LANES]).try_into().unwrap();
        for i in 0..LANES {
            let (a, b) = (left_level[i] as i16, right_level[i] as i16);
            let (x, y) = (left[i], right[i]);
            differ[i] |= row[i] ^ x ^ ((x ^ y) & mask(b < a));
            left_level[i] = a.min(b) as u16;
        }
        at += LANES;
    }
    let mut off = differ.iter().fold(0, |off, &d| off | d);
    for i in at..m {
        let (a, b) = (level[i], level[i + half]);
        off |= row[i] ^ if b < a { right[i] } else { left[i] };
        level[i] = a.min(b);
    }
    off
}
