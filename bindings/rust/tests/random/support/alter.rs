//! What can be wrong with the buffers of a call.

use super::Rng;
use crate::model::{log, Call, Lent, TABLES};

#[derive(Clone, Copy, Debug)]
pub enum Length {
    OneShort,
    OneLong,
    /// A third of its cells: of an answer to pairs, one cell for each.
    Third,
    Empty,
}

impl Length {
    pub const ALL: [Length; 4] = [
        Length::OneShort,
        Length::OneLong,
        Length::Third,
        Length::Empty,
    ];
}

/// Gives the buffer of this number another length.
pub fn alter_length(lent: &mut Lent, buffer: usize, length: Length) {
    let cells = lent.buffer(buffer);
    cells.set_length(match length {
        Length::OneShort => cells.length().saturating_sub(1),
        Length::OneLong => cells.length() + 1,
        Length::Third => cells.length() / 3,
        Length::Empty => 0,
    });
}

/// Changes one cell of a table to any other number.
pub fn change(lent: &mut Lent, table: usize, cell: usize, rng: &mut Rng) {
    lent.table(table)[cell] ^= 1 + rng.below(65_535) as u16;
}

/// Changes one cell of a table, if the table has any: the first or last of a section as often as any other.
pub fn alter_cell(lent: &mut Lent, rng: &mut Rng) {
    let edge = rng.pick(&edges(lent.parents.len().max(1)));
    let table = rng.pick(&TABLES);
    let anywhere = (table, rng.below(lent.table(table).len().max(1)));
    let (table, cell) = rng.pick(&[edge, anywhere]);
    if cell < lent.table(table).len() {
        change(lent, table, cell, rng);
    }
}

/// The first and the last cell of each section of the tables for n parts, as buffer and cell: of each column of labels, of the visits,
/// of the first positions, of each row, and of the order.
pub fn edges(n: usize) -> Vec<(usize, usize)> {
    let visits = 2 * n - 1;
    let mut tour = vec![visits, n];
    tour.resize(2 + log(visits) + 1, visits);
    let sections = [vec![n; 6], tour, vec![n; log(n) + 1], vec![n]];
    let mut edges = Vec::new();
    for (buffer, sections) in TABLES.into_iter().zip(sections) {
        let mut first = 0;
        for cells in sections {
            edges.push((buffer, first));
            edges.push((buffer, first + cells - 1));
            first += cells;
        }
    }
    edges
}

/// Puts a number that is no part at a random position of the question, if it has any, and asks for the subtree of one.
pub fn name_no_part(lent: &mut Lent, rng: &mut Rng) {
    lent.part = no_part(lent.parents.len(), rng);
    let n = lent.parents.len().min(65_535);
    let beyond = n + rng.below(65_536 - n);
    if !lent.question.is_empty() {
        let position = rng.below(lent.question.len());
        lent.question[position] = rng.pick(&[n, 65_535, beyond]) as u16;
    }
}

/// A number that is no part of n: the next one, one near the sheet, or one far off it, of which the last 16 or 32 bits alone would be a part.
fn no_part(n: usize, rng: &mut Rng) -> usize {
    let part = rng.below(n.max(1));
    rng.pick(&[n, n + part, (1 << 16) + part, (1 << 32) + part, usize::MAX])
}

/// Asks for nothing, with an answer buffer to fit.
pub fn empty_question(lent: &mut Lent, call: Call) {
    lent.question.clear();
    if call.is_of_pairs() {
        lent.answer.clear();
    }
}
