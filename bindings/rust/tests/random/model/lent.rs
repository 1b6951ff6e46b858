//! The buffers that calls are lent.

use super::calls::Call;
use super::tables::Tables;

/// The numbers of the buffers.
pub const BUFFERS: std::ops::RangeInclusive<usize> = 1..=10;

/// Those of the tables, as they are compared end to end.
pub const TABLES: [usize; 4] = [1, 2, 3, 8];

/// All buffers; a call takes those that it has.
#[derive(Clone, Default)]
pub struct Lent {
    pub parents: Vec<u16>,
    pub label: Vec<u16>,
    pub tour: Vec<u16>,
    pub lift: Vec<u16>,
    pub work: Vec<u16>,
    pub question: Vec<u16>,
    pub answer: Vec<u16>,
    pub trail: Vec<u16>,
    pub order: Vec<u16>,
    pub counts: Vec<u32>,
    pub totals: Vec<u64>,
    /// The part whose subtree is asked for.
    pub part: usize,
    /// The subtree that is handed back: the cell of the order table at which it begins, and its cells.
    pub found: Option<(usize, Vec<u16>)>,
}

impl Lent {
    /// The table of this number, one of `TABLES`.
    pub fn table(&mut self, number: usize) -> &mut Vec<u16> {
        match number {
            1 => &mut self.label,
            2 => &mut self.tour,
            3 => &mut self.lift,
            _ => &mut self.order,
        }
    }

    /// The buffer of this number, one of `BUFFERS`.
    pub fn buffer(&mut self, number: usize) -> &mut dyn Buffer {
        match number {
            4 => &mut self.work,
            5 => &mut self.question,
            6 => &mut self.answer,
            7 => &mut self.trail,
            9 => &mut self.counts,
            10 => &mut self.totals,
            table => self.table(table),
        }
    }

    /// The lowest buffer of the call without its exact length.
    pub fn misfit(&mut self, call: Call) -> Option<usize> {
        let n = self.parents.len();
        let [label, tour, lift, order] = Tables::lengths(n);
        let asked = self.question.len();
        let question = match call {
            Call::List => asked,
            Call::Trail => 2,
            _ => asked / 2 * 2,
        };
        let answer = call.answer_cells(asked);
        let exact = [label, tour, lift, 4 * n, question, answer, 64, order, n, n];
        BUFFERS
            .filter(|&b| call.takes(b))
            .find(|&b| self.buffer(b).length() != exact[b - 1])
    }
}

/// A buffer, whatever the width of its cells.
pub trait Buffer {
    fn length(&self) -> usize;

    /// Cuts it, or adds cells that hold 0.
    fn set_length(&mut self, length: usize);

    /// Its cells, in 64 bits each.
    fn wide(&self) -> Vec<u64>;
}

impl<T: Copy + Default + Into<u64>> Buffer for Vec<T> {
    fn length(&self) -> usize {
        self.len()
    }

    fn set_length(&mut self, length: usize) {
        self.resize(length, T::default());
    }

    fn wide(&self) -> Vec<u64> {
        self.iter().map(|&cell| cell.into()).collect()
    }
}
