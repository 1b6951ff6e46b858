//! The ways, pair by pair, and by lifts so many pairs at once as the Rust version takes.

use std::hint::select_unpredictable;

use super::{Found, Pair};
use crate::buffers::Buffers;
use crate::fast::by_labels::Labels;
use crate::fast::by_lifts::{self, raise, AT_ONCE};
use crate::fast::log2;
use crate::fast::stretch::Tour;

/// Fills the carrier's cell of each pair.
#[inline(always)]
pub fn carriers(pairs: &[Pair], answer: &mut [Found], carrier: impl Fn(Pair) -> u16) {
    for (&pair, cells) in pairs.iter().zip(answer) {
        cells[0] = carrier(pair);
    }
}

/// Fills all cells of each pair.
#[inline(always)]
pub fn each(pairs: &[Pair], answer: &mut [Found], found: impl Fn(Pair) -> Found) {
    for (&pair, cells) in pairs.iter().zip(answer) {
        *cells = found(pair);
    }
}

/// The tables of a sheet.
pub struct View<'a> {
    pub labels: Labels<'a>,
    pub tour: Tour<'a>,
    lift: &'a [u16],
    /// The rows of `lift` that can change a carrier.
    rows: &'a [u16],
    level: &'a [u16],
}

/// A carrier that is found by the tour: the position that shows it, and its first visit.
pub struct Shown {
    pub carrier: u16,
    at: u16,
    first: u16,
}

impl<'a> View<'a> {
    pub fn new(b: &'a Buffers) -> Self {
        let n = b.parents.len();
        View {
            labels: Labels::new(&b.parents, &b.label),
            tour: Tour::new(n, &b.label, &b.tour),
            lift: &b.lift,
            rows: by_lifts::rows(&b.lift, &b.label, n),
            level: &b.label[2 * n..3 * n],
        }
    }

    /// What the two blocks of a stretch of the tour show.
    #[inline(always)]
    fn blocks(&self, from: u16, to: u16) -> (u16, u16) {
        let (from, to) = (from as usize, to as usize);
        let k = log2(to - from + 1);
        let start = k * self.tour.e.len();
        let (left, right) = (start + from, start + to + 1 - (1 << k));
        (self.tour.rows[left], self.tour.rows[right])
    }

    /// The carrier by the tour.
    #[inline(always)]
    pub fn between(&self, pair: Pair) -> Shown {
        let [x, y] = pair.map(|part| self.tour.r[part as usize]);
        let (left, right) = self.blocks(x.min(y), x.max(y));
        let [a, b] = [left, right].map(|at| self.tour.e[at as usize]);
        let [first_a, first_b] = [a, b].map(|part| self.tour.r[part as usize]);
        Shown {
            carrier: select_unpredictable(first_a <= first_b, a, b),
            at: select_unpredictable(first_a <= first_b, left, right),
            first: first_a.min(first_b),
        }
    }

    /// The branch toward a part by climbing to one level below the carrier, by the powers of two that make the steps up.
    #[inline(always)]
    fn climbed(&self, carrier: u16, part: u16) -> u16 {
        if part == carrier {
            return part;
        }
        let mut at = part as usize;
        let mut steps = self.level[at] - self.level[carrier as usize] - 1;
        while steps != 0 {
            let row = steps.trailing_zeros() as usize * self.level.len();
            at = self.lift[row + at] as usize;
            steps &= steps - 1;
        }
        at as u16
    }

    /// Both branches by that.
    #[inline(always)]
    pub fn by_lifts(&self, carrier: u16, [x, y]: Pair) -> Found {
        [carrier, self.climbed(carrier, x), self.climbed(carrier, y)]
    }

    /// The branch toward what is visited at `from`, by where the tour comes back to the carrier.
    #[inline(always)]
    fn toward(&self, carrier: u16, first: u16, from: u16) -> u16 {
        let (left, right) = self.blocks(from, self.tour.last(carrier, first));
        self.tour.back(carrier, from, left, right)
    }

    /// Both branches by that.
    #[inline(always)]
    pub fn by_return(&self, carrier: u16, [x, y]: Pair) -> Found {
        let visit = |part: u16| self.tour.r[part as usize];
        let first = visit(carrier);
        [
            carrier,
            self.toward(carrier, first, visit(x)),
            self.toward(carrier, first, visit(y)),
        ]
    }

    /// Carrier and branches by labels: a HEAD that was read below the carrier, and by the tour the one branch that may be on its path.
    #[inline(always)]
    pub fn by_head(&self, pair: Pair) -> Found {
        let [x, y] = self.labels.sides(pair);
        let [first_x, first_y] = [&x, &y].map(|side| self.tour.r[side.at as usize]);
        let first = first_x.min(first_y);
        let carrier = self.tour.e[first as usize];
        let on_path = self.toward(carrier, first, first_x.max(first_y));
        [
            carrier,
            select_unpredictable(first_x <= first_y, x.before, on_path),
            select_unpredictable(first_y <= first_x, y.before, on_path),
        ]
    }

    /// Carrier and branches by the tour: the position that shows the carrier stands right after the branch of the part that is visited first.
    #[inline(always)]
    pub fn by_position(&self, pair: Pair) -> Found {
        let [x, y] = pair.map(|part| self.tour.r[part as usize]);
        let shown = self.between(pair);
        let near = self.tour.before(x.min(y), shown.at);
        let far = self.toward(shown.carrier, shown.first, x.max(y));
        [
            shown.carrier,
            select_unpredictable(x <= y, near, far),
            select_unpredictable(x <= y, far, near),
        ]
    }

    /// Carrier and branches by lifts, so many pairs at once as the Rust version takes, and what is made of them.
    #[inline(always)]
    pub fn at_once(
        &self,
        pairs: &[Pair],
        answer: &mut [Found],
        fill: impl Fn(&mut Found, Pair, Found),
    ) {
        let (groups, answers) = (pairs.as_chunks().0, answer.as_chunks_mut::<AT_ONCE>().0);
        for (group, answer) in groups.iter().zip(answers) {
            let mut found = [[0; 3]; AT_ONCE];
            raise(self.rows, self.level, group, &mut found);
            for i in 0..AT_ONCE {
                fill(&mut answer[i], group[i], found[i]);
            }
        }
    }
}
