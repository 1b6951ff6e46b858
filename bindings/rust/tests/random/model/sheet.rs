//! Whether a sheet is one rooted tree.

/// The most parts of a sheet.
pub const MOST_PARTS: usize = 16_384;

/// A refusal's number and place.
pub type Refused = (u32, u64);

/// Tests 4 to 7, in this order.
pub fn not_one_tree(parents: &[u16]) -> Option<Refused> {
    let n = parents.len();
    if let Some(part) = (0..n).find(|&v| parents[v] as usize >= n) {
        return Some((4, part as u64));
    }
    let roots: Vec<usize> = (0..n).filter(|&v| parents[v] as usize == v).collect();
    match roots[..] {
        [] => Some((5, 0)),
        [root] => (0..n)
            .find(|&v| !reaches(parents, v, root))
            .map(|part| (7, part as u64)),
        [_, second, ..] => Some((6, second as u64)),
    }
}

/// Whether the climb from `part` meets the root: it does within n steps, or never.
fn reaches(parents: &[u16], part: usize, root: usize) -> bool {
    let mut here = part;
    for _ in parents {
        if here == root {
            return true;
        }
        here = parents[here] as usize;
    }
    false
}

/// The parts that carry `part`: itself first, the root last.
pub fn carriers(parents: &[u16], part: u16) -> Vec<u16> {
    let mut path = vec![part];
    let mut here = part;
    while parents[here as usize] != here {
        here = parents[here as usize];
        path.push(here);
    }
    path
}
