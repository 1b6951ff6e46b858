//! The label route: Schieber and Vishkin's steps 1 to 4, and the branches that they pass.

use std::hint::select_unpredictable;

use super::stretch::{Blocks, Cells, Tour, TOGETHER};
use super::{label, log2};

/// The columns that the label route reads.
pub struct Labels<'a> {
    parents: &'a [u16],
    level: &'a [u16],
    inlabel: &'a [u16],
    ascendant: &'a [u16],
    head: &'a [u16],
}

/// Where a part comes onto the carrier's path (step 3), and the last part before; the part itself for both where it is on that path.
pub struct Onto {
    pub at: u16,
    pub before: u16,
}

impl Onto {
    /// A part that is on that path.
    #[inline(always)]
    fn already(part: u16) -> Self {
        Onto {
            at: part,
            before: part,
        }
    }
}

impl<'a> Labels<'a> {
    #[inline(always)]
    pub fn new(parents: &'a [u16], label: &'a [u16]) -> Self {
        let n = parents.len();
        let [_, _, level, inlabel, ascendant, head] = label::columns(label).map(|c| &c[..n]);
        Labels {
            parents,
            level,
            inlabel,
            ascendant,
            head,
        }
    }

    /// By the highest path that x passes below the carrier's, and by what of its ASCENDANT lies below that.
    #[inline(always)]
    fn onto(&self, x: u16, passed: u16, below: u16) -> Onto {
        let head = self.head[passed as usize - 1];
        let before = select_unpredictable(below == 0, x, head);
        let up = self.parents[before as usize];
        let at = select_unpredictable(below == 0, x, up);
        Onto { at, before }
    }

    /// Steps 1 to 3 for one pair.
    #[inline(always)]
    pub fn sides(&self, [x, y]: [u16; 2]) -> [Onto; 2] {
        let (ix, iy) = (self.inlabel[x as usize], self.inlabel[y as usize]);
        let (ax, ay) = (self.ascendant[x as usize], self.ascendant[y as usize]);
        let [bx, by] = below(upto_one, [ix, iy], [ax, ay]);
        [
            self.onto(x, passed(upto_one, ix, bx), bx),
            self.onto(y, passed(upto_one, iy, by), by),
        ]
    }

    /// The carrier of one pair: of where both come onto its path the one of lesser LEVEL (step 4).
    #[inline(always)]
    pub fn carrier(&self, pair: [u16; 2]) -> u16 {
        let by_level = |side: Onto| (self.level[side.at as usize] as u32) << 16 | side.at as u32;
        let [x, y] = self.sides(pair);
        by_level(x).min(by_level(y)) as u16
    }

    /// The carrier of each pair and its branches.
    pub fn answer(&self, tour: &Tour, pairs: &[[u16; 2]], answer: &mut [[u16; 3]]) {
        let (mut paths, mut open) = (Paths::new(), Open::new());
        for (pairs, cells) in pairs.chunks(TOGETHER).zip(answer.chunks_mut(TOGETHER)) {
            if paths.read(self, pairs) == 0 {
                open.meet(tour, pairs, cells, |_, pair| pair.map(Onto::already));
            } else {
                open.meet(tour, pairs, cells, |i, pair| paths.climb(self, i, pair));
            }
            open.close(tour, cells.as_flattened_mut());
        }
    }
}

/// The highest bit of a number, and all lower ones; none for 0. These steps become vector code.
#[inline(always)]
fn upto(number: u16) -> u16 {
    let bits = number | number >> 1;
    let bits = bits | bits >> 2;
    let bits = bits | bits >> 4;
    bits | bits >> 8
}

/// The same in fewer steps for one number alone.
#[inline(always)]
fn upto_one(number: u16) -> u16 {
    ((1 << log2(2 * number as usize + 1)) - 1) as u16
}

/// What of x's and y's ASCENDANT lies below the carrier's path (steps 1 and 2).
#[inline(always)]
fn below(upto: fn(u16) -> u16, [x, y]: [u16; 2], ascendant: [u16; 2]) -> [u16; 2] {
    let parted = upto((x & x.wrapping_neg()) | (y & y.wrapping_neg()) | (x ^ y));
    let common = ascendant[0] & ascendant[1] & !(parted >> 1);
    let lower = common.wrapping_sub(1) & !common;
    ascendant.map(|bits| bits & lower)
}

/// The INLABEL of the highest path that is passed below the carrier's; the part's own where none is.
#[inline(always)]
fn passed(upto: fn(u16) -> u16, inlabel: u16, below: u16) -> u16 {
    let bits = upto(below);
    (inlabel & !bits) | (bits ^ (bits >> 1))
}

/// What x and y of the pairs that are taken together pass on the way to the carrier's path.
struct Paths {
    passed: [Cells; 2],
    below: [Cells; 2],
}

impl Paths {
    fn new() -> Self {
        let [passed, below] = [[[0; TOGETHER]; 2]; 2];
        Paths { passed, below }
    }

    /// Steps 1 and 2. Gives 0 if no part passes any path: if all are on the carriers' own.
    #[inline(always)]
    fn read(&mut self, labels: &Labels, pairs: &[[u16; 2]]) -> u16 {
        let ([px, py], [bx, by]) = (&mut self.passed, &mut self.below);
        let count = pairs.len().min(TOGETHER);
        let pairs = &pairs[..count];
        for i in 0..count {
            let [x, y] = pairs[i].map(usize::from);
            (px[i], bx[i]) = (labels.inlabel[x], labels.ascendant[x]);
            (py[i], by[i]) = (labels.inlabel[y], labels.ascendant[y]);
        }
        let mut any = 0;
        for i in 0..count {
            [bx[i], by[i]] = below(upto, [px[i], py[i]], [bx[i], by[i]]);
            px[i] = passed(upto, px[i], bx[i]);
            py[i] = passed(upto, py[i], by[i]);
            any |= bx[i] | by[i];
        }
        any
    }

    /// Step 3 for pair i.
    #[inline(always)]
    fn climb(&self, labels: &Labels, i: usize, [x, y]: [u16; 2]) -> [Onto; 2] {
        let ([px, py], [bx, by]) = (&self.passed, &self.below);
        [labels.onto(x, px[i], bx[i]), labels.onto(y, py[i], by[i])]
    }
}

/// Those of the pairs that are taken together whose sides come onto the carrier's path at two parts. The higher is the carrier; the branch
/// toward the lower is on the path too, so that no HEAD shows it, and is looked up in the tour.
struct Open {
    count: usize,
    /// The branch's cell in the answer.
    cell: Cells,
    carrier: Cells,
    /// The first visits of both parts: that of the lower, and of the carrier.
    lower: Cells,
    first: Cells,
    last: Cells,
    blocks: Blocks,
}

impl Open {
    fn new() -> Self {
        let [cell, carrier, lower, first, last] = [[0; TOGETHER]; 5];
        Open {
            count: 0,
            cell,
            carrier,
            lower,
            first,
            last,
            blocks: Blocks::new(),
        }
    }

    /// Step 4, after step 3 by `climb`. Each side's branch is the part before it comes onto the path, but where the pair is left open. That is
    /// noted without a jump: what is noted of a pair that isn't open is overwritten.
    #[inline(always)]
    fn meet(
        &mut self,
        tour: &Tour,
        pairs: &[[u16; 2]],
        answer: &mut [[u16; 3]],
        climb: impl Fn(usize, [u16; 2]) -> [Onto; 2],
    ) {
        let count = pairs.len().min(TOGETHER);
        let (pairs, answer) = (&pairs[..count], &mut answer[..count]);
        let mut open = 0;
        for i in 0..count {
            let [x, y] = climb(i, pairs[i]);
            let (first_x, first_y) = (tour.r[x.at as usize], tour.r[y.at as usize]);
            let first = first_x.min(first_y);
            let carrier = tour.e[first as usize];
            answer[i] = [carrier, x.before, y.before];
            self.cell[open] = 3 * i as u16 + 1 + (first_x < first_y) as u16;
            self.carrier[open] = carrier;
            self.lower[open] = first_x.max(first_y);
            self.first[open] = first;
            open += (first_x != first_y) as usize;
        }
        self.count = open;
    }

    /// The branches that are left open.
    #[inline(always)]
    fn close(&mut self, tour: &Tour, answer: &mut [u16]) {
        let count = self.count.min(TOGETHER);
        for i in 0..count {
            self.last[i] = tour.last(self.carrier[i], self.first[i]);
        }
        tour.cover(&self.lower, &self.last, count, &mut self.blocks);
        for i in 0..count {
            let (left, right) = (self.blocks.left[i], self.blocks.right[i]);
            answer[self.cell[i] as usize] = tour.back(self.carrier[i], self.lower[i], left, right);
        }
    }
}
