//! Tests 4 to 7: is the sheet one rooted tree?

use super::{log2, refuse, Refusal};

/// Tests 4 to 6 in one pass; gives the root.
pub fn root(parents: &[u16]) -> Result<u16, Refusal> {
    let n = parents.len() as u16;
    let (mut off, mut roots, mut root) = (0u16, 0u16, 0u16);
    for (v, &p) in parents.iter().enumerate() {
        let v = v as u16;
        off |= (p >= n) as u16;
        roots += (p == v) as u16;
        root |= if p == v { v } else { 0 };
    }
    if off == 0 && roots == 1 {
        return Ok(root);
    }
    refused_root(parents)
}

#[cold]
fn refused_root(parents: &[u16]) -> Result<u16, Refusal> {
    let n = parents.len();
    if let Some(v) = parents.iter().position(|&p| p as usize >= n) {
        return refuse(4, v);
    }
    let mut roots = (0..n).filter(|&v| parents[v] as usize == v);
    match (roots.next(), roots.next()) {
        (None, _) => refuse(5, 0),
        (_, Some(second)) => refuse(6, second),
        (Some(root), None) => Ok(root as u16),
    }
}

/// Test 7: every node's link is replaced by its link's link, in place, until all are the root. After k rounds a link reaches 2^k steps
/// or more, so a node that is not at the root after log n + 1 rounds never gets there.
pub fn loops(parents: &[u16], root: u16, link: &mut [u16]) -> Result<(), Refusal> {
    link.copy_from_slice(parents);
    for _ in 0..=log2(parents.len()) {
        if shorten(link, root) {
            return Ok(());
        }
    }
    match link.iter().position(|&up| up != root) {
        Some(v) => refuse(7, v),
        None => Ok(()),
    }
}

/// One round; says whether all links are the root.
fn shorten(link: &mut [u16], root: u16) -> bool {
    let mut off = 0;
    for v in 0..link.len() {
        let up = link[link[v] as usize];
        link[v] = up;
        off |= up ^ root;
    }
    off == 0
}
