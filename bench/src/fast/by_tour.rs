//! The tour route: the carrier stands at the least LEVEL between two first visits, and the branches right before where the tour comes to it.

use std::hint::select_unpredictable;

use super::mask;
use super::stretch::{Blocks, Cells, Tour, TOGETHER};

/// What is known of the pairs that are taken together. The part that is visited first is the near one of its pair, the other the far one.
struct Stage {
    near: Cells,
    far: Cells,
    /// All ones where x is the far one.
    turned: Cells,
    carrier: Cells,
    /// Where the carrier is visited last.
    last: Cells,
    near_branch: Cells,
    blocks: Blocks,
}

/// The carrier of each pair and its branches, by the tour table.
pub fn answer(tour: &Tour, pairs: &[[u16; 2]], answer: &mut [[u16; 3]]) {
    let mut stage = Stage::new();
    for (pairs, cells) in pairs.chunks(TOGETHER).zip(answer.chunks_mut(TOGETHER)) {
        let count = pairs.len();
        stage.visits(tour, pairs);
        tour.cover(&stage.near, &stage.far, count, &mut stage.blocks);
        stage.carriers(tour, count);
        tour.cover(&stage.far, &stage.last, count, &mut stage.blocks);
        stage.write(tour, cells);
    }
}

impl Stage {
    fn new() -> Self {
        let [near, far, turned, carrier, last, near_branch] = [[0; TOGETHER]; 6];
        Stage {
            near,
            far,
            turned,
            carrier,
            last,
            near_branch,
            blocks: Blocks::new(),
        }
    }

    /// The first visits of each pair, in order.
    #[inline(always)]
    fn visits(&mut self, tour: &Tour, pairs: &[[u16; 2]]) {
        let ends = self.near.iter_mut().zip(&mut self.far);
        for ((near, far), &[x, y]) in ends.zip(pairs) {
            (*near, *far) = (tour.r[x as usize], tour.r[y as usize]);
        }
        let count = pairs.len().min(TOGETHER);
        let ends = self.near[..count].iter_mut().zip(&mut self.far);
        for ((near, far), turned) in ends.zip(&mut self.turned) {
            let (x, y) = (*near as i16, *far as i16);
            (*near, *far) = (x.min(y) as u16, x.max(y) as u16);
            *turned = mask(y < x);
        }
    }

    /// The carriers, from the blocks between near and far: of what they show, one is the carrier and carries the other, so it is visited first.
    /// The near part's branch stands right before, since the position is the leftmost.
    #[inline(always)]
    fn carriers(&mut self, tour: &Tour, count: usize) {
        for i in 0..count.min(TOGETHER) {
            let (left, right) = (self.blocks.left[i], self.blocks.right[i]);
            let (a, b) = (tour.e[left as usize], tour.e[right as usize]);
            let (first_a, first_b) = (tour.r[a as usize], tour.r[b as usize]);
            let at = select_unpredictable(first_a <= first_b, left, right);
            let carrier = select_unpredictable(first_a <= first_b, a, b);
            self.carrier[i] = carrier;
            self.last[i] = tour.last(carrier, first_a.min(first_b));
            self.near_branch[i] = tour.before(self.near[i], at);
        }
    }

    /// The far part's branch, from the blocks between far and last, and the answer.
    #[inline(always)]
    fn write(&self, tour: &Tour, answer: &mut [[u16; 3]]) {
        for (i, cells) in answer.iter_mut().take(TOGETHER).enumerate() {
            let (carrier, near) = (self.carrier[i], self.near_branch[i]);
            let (left, right) = (self.blocks.left[i], self.blocks.right[i]);
            let far = tour.back(carrier, self.far[i], left, right);
            let turned = self.turned[i] != 0;
            *cells = [
                carrier,
                select_unpredictable(turned, far, near),
                select_unpredictable(turned, near, far),
            ];
        }
    }
}
