//! Buffers of exact lengths, made the same way for every candidate.

use lca::cells;

use crate::sheets::{counts, Draw};

/// A sheet with its tables, its counts of wear and scratch. All candidates are lent the same buffers in turn, so place and alignment are the same for all.
#[derive(Clone, PartialEq, Eq, Debug)]
pub struct Buffers {
    pub parents: Vec<u16>,
    pub label: Vec<u16>,
    pub tour: Vec<u16>,
    pub lift: Vec<u16>,
    pub order: Vec<u16>,
    pub work: Vec<u16>,
    pub counts: Vec<u32>,
    pub totals: Vec<u64>,
}

impl Buffers {
    /// Cleared tables and totals for a sheet, with counts that are the same in every run.
    pub fn new(parents: Vec<u16>) -> Self {
        let n = parents.len();
        Buffers {
            label: vec![0; cells::label(n)],
            tour: vec![0; cells::tour(n)],
            lift: vec![0; cells::lift(n)],
            order: vec![0; cells::order(n)],
            work: vec![0; cells::work(n)],
            counts: counts(cells::counts(n), &mut Draw::new(n as u64 + 2)),
            totals: vec![0; cells::totals(n)],
            parents,
        }
    }

    /// Label, tour, lift and order.
    pub fn tables(&self) -> [&[u16]; 4] {
        [&self.label, &self.tour, &self.lift, &self.order]
    }

    /// Label, tour, lift, order and work, to be filled.
    pub fn lent(&mut self) -> [&mut Vec<u16>; 5] {
        [
            &mut self.label,
            &mut self.tour,
            &mut self.lift,
            &mut self.order,
            &mut self.work,
        ]
    }

    /// The numbers of these in a misfit.
    pub const NUMBERS: [u64; 5] = [1, 2, 3, 8, 4];

    /// Cells of the four tables.
    pub fn table_cells(&self) -> usize {
        self.tables().iter().map(|table| table.len()).sum()
    }
}
