//! Carriers, branches, trails, subtrees and totals, by climbing.

use super::sheet::carriers;
use super::tables::log;

/// The carrier of two parts.
pub fn carrier(parents: &[u16], x: u16, y: u16) -> u16 {
    common_carrier(parents, &[x, y])
}

/// The carrier of a list: of the parts that carry every listed one, the one reached first in a climb.
pub fn common_carrier(parents: &[u16], parts: &[u16]) -> u16 {
    let mut carried = vec![0; parents.len()];
    for &part in parts {
        for above in carriers(parents, part) {
            carried[above as usize] += 1;
        }
    }
    let climb = carriers(parents, parts[0]);
    let common = climb
        .into_iter()
        .find(|&c| carried[c as usize] == parts.len());
    common.unwrap()
}

/// The branch of a carrier towards a part that it carries: of what the part's climb meets before the carrier, the last; where that is
/// nothing, the carrier.
pub fn branch(parents: &[u16], carrier: u16, part: u16) -> u16 {
    let climb = carriers(parents, part).into_iter();
    let before = climb.take_while(|&above| above != carrier);
    before.last().unwrap_or(carrier)
}

/// The cells of a pair's answer: the carrier, x's branch, y's branch.
pub fn pair(parents: &[u16], x: u16, y: u16) -> [u16; 3] {
    let carrier = carrier(parents, x, y);
    let [x_branch, y_branch] = [x, y].map(|part| branch(parents, carrier, part));
    [carrier, x_branch, y_branch]
}

/// The rows of the lift route's trail.
pub fn trail(parents: &[u16], x: u16, y: u16) -> Vec<(u16, u16)> {
    let (mut x, mut y) = (x, y);
    let mut rows = Vec::new();
    let level = |v| carriers(parents, v).len() - 1;
    for k in (0..=log(parents.len())).rev() {
        if level(x) >= level(y) + (1 << k) {
            x = up(parents, x, 1 << k);
            rows.push((x, y));
        } else if level(y) >= level(x) + (1 << k) {
            y = up(parents, y, 1 << k);
            rows.push((x, y));
        }
    }
    if x == y {
        return rows;
    }
    for k in (0..=log(parents.len())).rev() {
        let (above_x, above_y) = (up(parents, x, 1 << k), up(parents, y, 1 << k));
        if above_x != above_y {
            (x, y) = (above_x, above_y);
            rows.push((x, y));
        }
    }
    rows.push((up(parents, x, 1), up(parents, y, 1)));
    rows
}

/// The parts that `part` carries, in preorder: of all parts in that order, those whose climb meets it.
pub fn subtree(parents: &[u16], order: &[u16], part: u16) -> Vec<u16> {
    let carried = order.iter().copied();
    carried
        .filter(|&v| carriers(parents, v).contains(&part))
        .collect()
}

/// Each part's total: each count is added for every part that its own climb meets, and no total is made from another.
pub fn totals(parents: &[u16], counts: &[u32]) -> Vec<u64> {
    let mut totals = vec![0; parents.len()];
    for (part, &count) in counts.iter().enumerate() {
        for above in carriers(parents, part as u16) {
            totals[above as usize] += u64::from(count);
        }
    }
    totals
}

/// The part so many steps up, staying at the root.
fn up(parents: &[u16], part: u16, steps: usize) -> u16 {
    (0..steps).fold(part, |here, _| parents[here as usize])
}
