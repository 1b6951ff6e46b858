//! Stretches of the tour, many at a time: the two blocks of the rows that cover each, and the branch that they show.

use std::hint::select_unpredictable;

use super::tour;

/// Pairs that are taken together, one stage after another: the loads of a stage don't wait for one another, and what lies between loads
/// becomes vector code.
pub const TOGETHER: usize = 64;

/// A cell for each of the pairs that are taken together.
pub type Cells = [u16; TOGETHER];

/// The tour table, and SIZE.
pub struct Tour<'a> {
    pub e: &'a [u16],
    pub r: &'a [u16],
    pub rows: &'a [u16],
    size: &'a [u16],
    /// For each row what is added to a stretch's first position, and to its last one, to get where its two blocks stand in the rows.
    starts: [(u32, u32); 16],
}

/// What the two blocks of each stretch show: positions of least LEVEL, each the leftmost of its block.
pub struct Blocks {
    pub left: Cells,
    pub right: Cells,
}

impl Blocks {
    pub fn new() -> Self {
        let [left, right] = [[0; TOGETHER]; 2];
        Blocks { left, right }
    }
}

impl<'a> Tour<'a> {
    #[inline(always)]
    pub fn new(n: usize, label: &'a [u16], tour: &'a [u16]) -> Self {
        let size = &label[n..2 * n];
        let [e, r, rows] = tour::sections(tour, n);
        let start = |k: usize| (k * e.len()) as u32;
        let starts = std::array::from_fn(|k| (start(k), (start(k) + 1).wrapping_sub(1 << k)));
        Tour {
            e,
            r: &r[..n],
            rows,
            size,
            starts,
        }
    }

    /// The position of a part's last visit, by that of its first one.
    #[inline(always)]
    pub fn last(&self, part: u16, first: u16) -> u16 {
        first + 2 * self.size[part as usize] - 2
    }

    /// Looks up the blocks of so many stretches.
    #[inline(always)]
    pub fn cover(&self, from: &Cells, to: &Cells, count: usize, blocks: &mut Blocks) {
        let count = count.min(TOGETHER);
        let mut rows = [0; TOGETHER];
        logs(&from[..count], &to[..count], &mut rows[..count]);
        for i in 0..count {
            let (first, last) = self.starts[rows[i] as usize % 16];
            blocks.left[i] = self.rows[(first + from[i] as u32) as usize];
            blocks.right[i] = self.rows[last.wrapping_add(to[i] as u32) as usize];
        }
    }

    /// The branch of a carrier toward what is visited at `from`. The stretch from there to the carrier's last visit has these blocks, so the
    /// leftmost visit of the carrier is where the tour first comes back to it.
    #[inline(always)]
    pub fn back(&self, carrier: u16, from: u16, left: u16, right: u16) -> u16 {
        let comes = select_unpredictable(self.e[left as usize] == carrier, left, right);
        self.before(from, comes)
    }

    /// What is visited right before a position of a stretch; at it, where it is the stretch's first one. There the carrier is visited at `from`
    /// itself, and is its own branch.
    #[inline(always)]
    pub fn before(&self, from: u16, at: u16) -> u16 {
        self.e[at as usize - (at > from) as usize]
    }
}

/// The row for each stretch: its length's log to base 2. A number of at most 24 bits has that as its exponent when it is a float, which becomes
/// vector code; the processor's own instruction for it waits for what was in the register before.
fn logs(from: &[u16], to: &[u16], rows: &mut [u16]) {
    for ((&from, &to), row) in from.iter().zip(to).zip(rows) {
        let length = to.wrapping_sub(from).wrapping_add(1) as i16;
        *row = ((length as f32).to_bits() >> 23).wrapping_sub(127) as u16;
    }
}
