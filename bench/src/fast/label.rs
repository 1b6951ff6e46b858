//! The label table: PREORDER, SIZE, LEVEL, INLABEL, ASCENDANT, HEAD.

use super::{check, gather, log2, mask, Refusal, NO_CELL};

/// The six columns of a label table.
pub fn columns(label: &[u16]) -> [&[u16]; 6] {
    let n = label.len() / 6;
    let (pre, rest) = label.split_at(n);
    let (size, rest) = rest.split_at(n);
    let (level, rest) = rest.split_at(n);
    let (inlabel, rest) = rest.split_at(n);
    let (ascendant, head) = rest.split_at(n);
    [pre, size, level, inlabel, ascendant, head]
}

/// The deepest LEVEL.
pub fn deepest(label: &[u16], n: usize) -> u16 {
    label[2 * n..3 * n]
        .iter()
        .map(|&l| l as i16)
        .max()
        .unwrap_or(0) as u16
}

/// Test 7, and the table if it passes.
pub fn fill(
    parents: &[u16],
    root: u16,
    label: &mut [u16],
    work: &mut [u16],
) -> Result<(), Refusal> {
    let n = parents.len();
    let (count, rest) = work.split_at_mut(n);
    let (order, rest) = rest.split_at_mut(n);
    let size = &mut rest[..n];
    if !peel(parents, root, [count, order, size]) {
        return check::loops(parents, root, count);
    }
    let (pre, rest) = label.split_at_mut(n);
    let (sizes, rest) = rest.split_at_mut(n);
    let (level, rest) = rest.split_at_mut(n);
    let (inlabel, rest) = rest.split_at_mut(n);
    let (ascendant, head) = rest.split_at_mut(n);
    offsets(parents, root, count, size, pre);
    size[root as usize] = n as u16;
    sizes.copy_from_slice(size);
    number(parents, order, pre, level);
    inlabels(pre, sizes, inlabel);
    added(parents, inlabel, count);
    ascend(parents, order, count, ascendant);
    heads(order, inlabel, head);
    Ok(())
}

/// The nodes in an order in which children stand before their parent, and SIZE; false if a node is on a loop. A node is put in once its
/// last child is taken, without a jump. `work` is cut into `[count, order, size]`.
pub fn peel(parents: &[u16], root: u16, work: [&mut [u16]; 3]) -> bool {
    let n = parents.len();
    let [count, order, size] = work.map(|part| &mut part[..n]);
    children(parents, count, size);
    size.fill(1);
    let mut found = leaves(count, order);
    let mut at = 0;
    while at < found {
        let v = order[at] as usize;
        let p = parents[v] as usize;
        size[p] += size[v];
        let left = count[p] - 1;
        count[p] = left;
        order[found] = p as u16;
        found += (left == 0) as usize;
        at += 1;
    }
    if found != n - 1 {
        return false;
    }
    order[n - 1] = root;
    count[root as usize] = 0;
    true
}

/// How many name each node, the root itself too, in `a`. Two buffers take turns, so that counts of one parent wait less for one another.
pub fn children(parents: &[u16], a: &mut [u16], b: &mut [u16]) {
    a.fill(0);
    b.fill(0);
    let pairs = parents.chunks_exact(2);
    for &p in pairs.remainder() {
        a[p as usize] += 1;
    }
    for p in pairs {
        a[p[0] as usize] += 1;
        b[p[1] as usize] += 1;
    }
    for (a, &b) in a.iter_mut().zip(&*b) {
        *a += b;
    }
}

/// Puts the nodes without children into `order`, without a jump, and gives how many there are.
#[inline(always)]
pub fn leaves(count: &[u16], order: &mut [u16]) -> usize {
    let mut found = 0;
    for (v, &children) in count.iter().enumerate() {
        order[found] = v as u16;
        found += (children == 0) as usize;
    }
    found
}

/// For each node the sizes of its lower siblings; `total` is all zero before.
pub fn offsets(
    parents: &[u16],
    root: u16,
    total: &mut [u16],
    size: &mut [u16],
    offset: &mut [u16],
) {
    size[root as usize] = 0;
    for ((&p, &s), o) in parents.iter().zip(&*size).zip(offset) {
        let sum = &mut total[p as usize];
        *o = *sum;
        *sum += s;
    }
}

/// PREORDER from the offsets, and LEVEL, from the root down.
pub fn number(parents: &[u16], order: &[u16], pre: &mut [u16], level: &mut [u16]) {
    let n = parents.len();
    let (pre, level) = (&mut pre[..n], &mut level[..n]);
    let root = order[n - 1] as usize;
    pre[root] = 1;
    level[root] = 0;
    for &v in order[..n - 1].iter().rev() {
        let v = v as usize;
        let p = parents[v] as usize;
        pre[v] += pre[p] + 1;
        level[v] = level[p] + 1;
    }
}

/// INLABEL of a node whose interval begins with `pre`.
#[inline(always)]
pub fn inlabel_of(pre: u16, size: u16) -> u16 {
    let last = pre.wrapping_add(size).wrapping_sub(1);
    let mut differ = pre.wrapping_sub(1) ^ last;
    differ |= differ >> 1;
    differ |= differ >> 2;
    differ |= differ >> 4;
    differ |= differ >> 8;
    last & !(differ >> 1)
}

fn inlabels(pre: &[u16], size: &[u16], inlabel: &mut [u16]) {
    for ((i, &p), &s) in inlabel.iter_mut().zip(pre).zip(size) {
        *i = inlabel_of(p, s);
    }
}

/// What each node adds to its parent's ASCENDANT: the lowest bit of its INLABEL where that isn't its parent's.
pub fn added(parents: &[u16], inlabel: &[u16], bits: &mut [u16]) {
    gather(inlabel, parents, bits);
    for (bit, &i) in bits.iter_mut().zip(inlabel) {
        *bit = i & i.wrapping_neg() & mask(i != *bit);
    }
}

/// ASCENDANT, from the root down.
pub fn ascend(parents: &[u16], order: &[u16], added: &[u16], ascendant: &mut [u16]) {
    let n = parents.len();
    let (added, ascendant) = (&added[..n], &mut ascendant[..n]);
    ascendant[order[n - 1] as usize] = 1 << log2(n);
    for &v in order[..n - 1].iter().rev() {
        let v = v as usize;
        ascendant[v] = ascendant[parents[v] as usize] + added[v];
    }
}

/// HEAD: of the nodes with one INLABEL the one nearest the root is stored last.
pub fn heads(order: &[u16], inlabel: &[u16], head: &mut [u16]) {
    head.fill(NO_CELL);
    for &v in order {
        head[inlabel[v as usize] as usize - 1] = v;
    }
}
