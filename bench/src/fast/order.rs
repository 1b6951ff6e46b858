//! The order table: the nodes in preorder.

/// Fills the table from PREORDER.
pub fn fill(pre: &[u16], order: &mut [u16]) {
    for (v, &p) in pre.iter().enumerate() {
        order[p as usize - 1] = v as u16;
    }
}

/// Whether a lent table is right, PREORDER being right: each node stands at its number, and there are no more cells than nodes.
#[inline(never)]
pub fn holds(pre: &[u16], order: &[u16]) -> bool {
    let places = pre.chunks_exact(4);
    let rest = places.remainder();
    let (mut off, mut v) = (0, 0);
    for p in places {
        off |= order[p[0] as usize - 1] ^ v;
        off |= order[p[1] as usize - 1] ^ (v + 1);
        off |= order[p[2] as usize - 1] ^ (v + 2);
        off |= order[p[3] as usize - 1] ^ (v + 3);
        v += 4;
    }
    for &p in rest {
        off |= order[p as usize - 1] ^ v;
        v += 1;
    }
    off == 0
}
