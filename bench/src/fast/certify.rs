//! Are lent tables the sheet's own? Each column is held to what its cells say of one another across the step from a node to its parent.
//! On a sheet with one root only the right cells meet that, so no order of the nodes is needed; and levels that rise by one at every step
//! rule a loop out.

use super::{gather, label, lift, log2, mask, order, tour, NO_CELL};

/// Whether the sheet (in range, with this one root) is a tree and the tables are its own.
pub fn holds(
    parents: &[u16],
    root: u16,
    [label, tour, lift, order]: [&[u16]; 4],
    work: &mut [u16],
) -> bool {
    let n = parents.len();
    let [e, r, rows] = tour::sections(tour, n);
    let level = &label[2 * n..3 * n];
    numbers_hold(parents, root, label, &mut work[..n])
        && paths_hold(parents, root, label, work)
        && visits_hold(parents, label, e, r)
        && {
            let levels = &mut work[..2 * n - 1];
            gather(level, e, levels);
            tour::rows_hold(rows, levels)
        }
        && lift::holds(parents, root, label::deepest(label, n), lift)
        && order::holds(&label[..n], order)
}

/// PREORDER, SIZE and LEVEL.
#[inline(never)]
fn numbers_hold(parents: &[u16], root: u16, label: &[u16], total: &mut [u16]) -> bool {
    let [pre, size, level, ..] = label::columns(label);
    let root = root as usize;
    if (pre[root], level[root]) != (1, 0) {
        return false;
    }
    total.fill(0);
    let mut off = 0;
    for range in [0..root, root + 1..parents.len()] {
        off |= steps(parents, [pre, size, level], total, range.start, range.end);
    }
    off == 0
        && total
            .iter()
            .zip(size)
            .fold(0, |off, (&t, &s)| off | (t.wrapping_add(1) ^ s))
            == 0
}

/// What PREORDER, SIZE and LEVEL say across the step up, for the nodes of a range without the root; 0 if they agree. `total` runs up the
/// sizes of each node's children.
#[inline(never)]
fn steps(parents: &[u16], columns: [&[u16]; 3], total: &mut [u16], from: usize, to: usize) -> u16 {
    let n = parents.len();
    let [pre, size, level] = columns.map(|column| &column[..n]);
    let total = &mut total[..n];
    let mut off = 0;
    for v in from..to {
        let p = parents[v] as usize;
        let before = total[p];
        total[p] = before.wrapping_add(size[v]);
        off |= pre[v] ^ pre[p].wrapping_add(before).wrapping_add(1);
        off |= level[v] ^ level[p].wrapping_add(1);
    }
    off
}

/// INLABEL, ASCENDANT and HEAD, the columns before being right.
#[inline(never)]
fn paths_hold(parents: &[u16], root: u16, label: &[u16], work: &mut [u16]) -> bool {
    let n = parents.len();
    let [pre, size, _, inlabel, ascendant, head] = label::columns(label);
    let own = pre.iter().zip(size).map(|(&p, &s)| label::inlabel_of(p, s));
    if inlabel
        .iter()
        .zip(own)
        .fold(0, |off, (&i, own)| off | (i ^ own))
        != 0
    {
        return false;
    }
    let at = root as usize;
    if (ascendant[at], head[inlabel[at] as usize - 1]) != (1 << log2(n), root) {
        return false;
    }
    let (above, rest) = work.split_at_mut(n);
    let (ascending, rest) = rest.split_at_mut(n);
    let top = &mut rest[..n];
    gather(inlabel, parents, above);
    gather(ascendant, parents, ascending);
    // HEAD's cell k - 1 is cell k from the cell before HEAD.
    gather(&label[5 * n - 1..], inlabel, top);
    let (off, heads) = path_steps([inlabel, ascendant], [above, ascending, top]);
    off == 0 && heads + 1 == head.iter().fold(0, |sum, &h| sum + (h != NO_CELL) as u16)
}

/// What ASCENDANT and HEAD say across the step up: 0 if they agree, and the count of heads but for the root.
#[inline(never)]
fn path_steps(
    [inlabel, ascendant]: [&[u16]; 2],
    [above, ascending, top]: [&[u16]; 3],
) -> (u16, u16) {
    let n = inlabel.len();
    let (ascendant, above, ascending, top) =
        (&ascendant[..n], &above[..n], &ascending[..n], &top[..n]);
    let (mut off, mut heads) = (0, 0);
    for v in 0..n {
        let is_head = mask(inlabel[v] != above[v]);
        let added = inlabel[v] & inlabel[v].wrapping_neg() & is_head;
        off |= ascendant[v] ^ ascending[v].wrapping_add(added);
        off |= (top[v] ^ v as u16) & is_head;
        heads += is_head & 1;
    }
    (off, heads)
}

/// E and R, the label table being right.
#[inline(never)]
fn visits_hold(parents: &[u16], label: &[u16], e: &[u16], r: &[u16]) -> bool {
    let [pre, size, level, ..] = label::columns(label);
    let mut off = 0;
    for ((&r, &p), &l) in r.iter().zip(pre).zip(level) {
        off |= r ^ tour::first_visit(p, l);
    }
    if off != 0 {
        return false;
    }
    for (v, ((&p, &r), &s)) in parents.iter().zip(r).zip(size).enumerate() {
        let first = r as usize;
        off |= e[first] ^ v as u16;
        if let Some(&after) = e.get(first + 2 * s as usize - 1) {
            off |= after ^ p;
        }
    }
    off == 0
}
