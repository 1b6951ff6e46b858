//! A plain climber: parents only, no tables.

/// Steps to the root.
#[inline]
fn level(parents: &[u16], mut v: u16) -> usize {
    let mut steps = 0;
    while parents[v as usize] != v {
        v = parents[v as usize];
        steps += 1;
    }
    steps
}

/// Carrier, x's branch and y's branch: climbs from the deeper part to equal levels, then from both together. A branch is the last part
/// before the carrier, or the carrier itself if there was no step.
pub fn pair(parents: &[u16], x: u16, y: u16) -> [u16; 3] {
    let (level_x, level_y) = (level(parents, x), level(parents, y));
    let (mut x, mut y) = (x, y);
    let (mut x_branch, mut y_branch) = (x, y);
    for _ in level_y..level_x {
        (x, x_branch) = (parents[x as usize], x);
    }
    for _ in level_x..level_y {
        (y, y_branch) = (parents[y as usize], y);
    }
    while x != y {
        (x, x_branch) = (parents[x as usize], x);
        (y, y_branch) = (parents[y as usize], y);
    }
    [x, x_branch, y_branch]
}

/// The answers to a list of pairs, three cells for each.
pub fn pairs(parents: &[u16], question: &[u16]) -> Vec<u16> {
    question
        .chunks_exact(2)
        .flat_map(|asked| pair(parents, asked[0], asked[1]))
        .collect()
}

/// Whether the climb from v meets `part`.
pub fn meets(parents: &[u16], mut v: u16, part: u16) -> bool {
    while v != part && parents[v as usize] != v {
        v = parents[v as usize];
    }
    v == part
}

/// Each part's total: its count is added for every part that its climb meets.
pub fn totals(parents: &[u16], counts: &[u32]) -> Vec<u64> {
    let mut totals = vec![0; parents.len()];
    for (v, &count) in (0..).zip(counts) {
        let mut here: u16 = v;
        totals[here as usize] += u64::from(count);
        while parents[here as usize] != here {
            here = parents[here as usize];
            totals[here as usize] += u64::from(count);
        }
    }
    totals
}

/// The carrier of all the listed parts, one after another.
pub fn list(parents: &[u16], question: &[u16]) -> Option<u16> {
    let carrier = |x, y| pair(parents, x, y)[0];
    question.iter().copied().reduce(carrier)
}
