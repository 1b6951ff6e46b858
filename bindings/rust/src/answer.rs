//! What is answered of a pair: its carrier with the branches, or with the trail.

use crate::cells;

/// The answer to a pair: the carrier, and its branches towards x and y.
///
/// A branch is the part directly below the carrier on the way to x, or to y. Where x or y is the carrier itself, that branch is the carrier.
///
/// ```
/// use lca::{Answer, Tree};
///
/// # fn main() -> Result<(), lca::Refusal> {
/// // Parts 1 and 2 are bolted into the root 0, parts 3 and 4 into 1, part 5 into 2, part 6 into 5.
/// let tree = Tree::new(&[0, 0, 0, 1, 1, 2, 5])?;
/// let answer = tree.pair(3, 6)?;
/// assert_eq!(answer, Answer { carrier: 0, x_branch: 1, y_branch: 2 });
///
/// // Part 0 is the carrier.
/// let answer = tree.pair(0, 6)?;
/// assert_eq!(answer, Answer { carrier: 0, x_branch: 0, y_branch: 2 });
/// # Ok(())
/// # }
/// ```
#[derive(Clone, Copy, Debug, PartialEq, Eq, Hash)]
pub struct Answer {
    /// The carrier.
    pub carrier: u16,
    /// The branch towards x: the carrier where x is the carrier.
    pub x_branch: u16,
    /// The branch towards y: the carrier where y is the carrier.
    pub y_branch: u16,
}

impl Answer {
    /// The answers in an answer buffer, pair by pair.
    pub(crate) fn all(buffer: &[u16]) -> Vec<Answer> {
        let answer = |pair: &[u16]| Answer {
            carrier: pair[0],
            x_branch: pair[1],
            y_branch: pair[2],
        };
        buffer.chunks_exact(cells::ANSWER).map(answer).collect()
    }
}

/// The carrier of a pair, and the lifts by which the lift route reaches it.
///
/// ```
/// # fn main() -> Result<(), lca::Refusal> {
/// let tree = lca::Tree::new(&[0, 0, 0, 1, 1, 2, 5])?;
/// let trail = tree.trail(0, 6)?;
/// assert_eq!(trail.carrier, 0);
/// assert_eq!(trail.rows, [(0, 2), (0, 0)]);
/// assert_eq!(trail.lifts(), 2);
/// # Ok(())
/// # }
/// ```
#[derive(Clone, Debug, PartialEq, Eq, Hash)]
pub struct Trail {
    /// The carrier.
    pub carrier: u16,
    /// For each lift, x's side and y's side after it.
    pub rows: Vec<(u16, u16)>,
}

impl Trail {
    /// The count of lifts.
    pub fn lifts(&self) -> usize {
        self.rows.len()
    }
}
