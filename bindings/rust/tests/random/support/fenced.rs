//! The library's calls, on buffers with a fence of cells on either side that no call may change.

use lca::{calls, Refusal};

use crate::model::{Call, Lent, Refused};

/// A cell of some width, and the fence of such cells.
trait Cell: Copy + PartialEq {
    const FENCE: [Self; 3];
}

impl Cell for u16 {
    const FENCE: [u16; 3] = [0xfe1e, 0xce11, 0x5afe];
}

impl Cell for u32 {
    const FENCE: [u32; 3] = [0xfe1e_ce11, 0xce11_5afe, 0x5afe_fe1e];
}

impl Cell for u64 {
    const FENCE: [u64; 3] = [
        0xfe1e_ce11_5afe_fe1e,
        0xce11_5afe_fe1e_ce11,
        0x5afe_fe1e_ce11_5afe,
    ];
}

/// A copy of a buffer, between two fences.
struct Fenced<T>(Vec<T>);

impl<T: Cell> Fenced<T> {
    fn new(cells: &[T]) -> Fenced<T> {
        Fenced([&T::FENCE, cells, &T::FENCE].concat())
    }

    fn cells(&mut self) -> &mut [T] {
        let end = self.0.len() - T::FENCE.len();
        &mut self.0[T::FENCE.len()..end]
    }

    fn into_cells(mut self) -> Vec<T> {
        assert!(self.0.starts_with(&T::FENCE) && self.0.ends_with(&T::FENCE));
        self.cells().to_vec()
    }
}

/// All buffers, fenced, and the part whose subtree is asked for.
struct Room {
    parents: Fenced<u16>,
    label: Fenced<u16>,
    tour: Fenced<u16>,
    lift: Fenced<u16>,
    work: Fenced<u16>,
    question: Fenced<u16>,
    answer: Fenced<u16>,
    trail: Fenced<u16>,
    order: Fenced<u16>,
    counts: Fenced<u32>,
    totals: Fenced<u64>,
    part: usize,
}

impl Room {
    fn new(lent: &Lent) -> Room {
        Room {
            parents: Fenced::new(&lent.parents),
            label: Fenced::new(&lent.label),
            tour: Fenced::new(&lent.tour),
            lift: Fenced::new(&lent.lift),
            work: Fenced::new(&lent.work),
            question: Fenced::new(&lent.question),
            answer: Fenced::new(&lent.answer),
            trail: Fenced::new(&lent.trail),
            order: Fenced::new(&lent.order),
            counts: Fenced::new(&lent.counts),
            totals: Fenced::new(&lent.totals),
            part: lent.part,
        }
    }

    fn into_lent(self, found: Option<Stretch>) -> Lent {
        Lent {
            parents: self.parents.into_cells(),
            label: self.label.into_cells(),
            tour: self.tour.into_cells(),
            lift: self.lift.into_cells(),
            work: self.work.into_cells(),
            question: self.question.into_cells(),
            answer: self.answer.into_cells(),
            trail: self.trail.into_cells(),
            order: self.order.into_cells(),
            counts: self.counts.into_cells(),
            totals: self.totals.into_cells(),
            part: self.part,
            found,
        }
    }
}

/// A part of the order table: the cell at which it begins, and its cells.
type Stretch = (usize, Vec<u16>);

/// Where a slice lies in the order table, by the addresses of both.
fn stretch(order: &[u16], found: &[u16]) -> Stretch {
    let (table, cells) = (order.as_ptr_range(), found.as_ptr_range());
    assert!(table.start <= cells.start && cells.end <= table.end);
    let bytes = cells.start as usize - table.start as usize;
    (bytes / size_of::<u16>(), found.to_vec())
}

/// Makes the library's call. `lent` becomes what it leaves.
pub fn run(call: Call, lent: &mut Lent) -> Result<u64, Refused> {
    let mut room = Room::new(lent);
    let mut found = None;
    let result = call_library(call, &mut room, &mut found);
    *lent = room.into_lent(found);
    result.map_err(|refusal| (refusal.number, refusal.place))
}

fn call_library(call: Call, room: &mut Room, found: &mut Option<Stretch>) -> Result<u64, Refusal> {
    let (parents, work) = (room.parents.cells(), room.work.cells());
    let (label, tour) = (room.label.cells(), room.tour.cells());
    let (lift, order) = (room.lift.cells(), room.order.cells());
    let (question, answer) = (room.question.cells(), room.answer.cells());
    let trail = room.trail.cells();
    let pairs = match call {
        Call::Check => return calls::check(parents, work).map(|()| 0),
        Call::Build => return calls::build(parents, label, tour, lift, order, work).map(|()| 0),
        Call::Compare => {
            return calls::compare(parents, label, tour, lift, order, work).map(|()| 0)
        }
        Call::Trail => {
            return calls::trail(
                parents, label, tour, lift, order, work, question, answer, trail,
            )
        }
        Call::Subtree => {
            let cells = calls::subtree(parents, label, tour, lift, order, work, room.part)?;
            *found = Some(stretch(order, cells));
            return Ok(cells.len() as u64);
        }
        Call::Totals => {
            let (counts, totals) = (room.counts.cells(), room.totals.cells());
            return calls::totals(parents, work, counts, totals).map(|()| 0);
        }
        Call::PairsByLabels => calls::pairs_by_labels,
        Call::PairsByTour => calls::pairs_by_tour,
        Call::PairsByLifts => calls::pairs_by_lifts,
        Call::List => calls::list,
    };
    pairs(parents, label, tour, lift, order, work, question, answer).map(|()| 0)
}
