//! The calls that answer: pairs by each route, a list, the trail of one pair, and the subtree of one part.

use super::by_labels::Labels;
use super::by_lifts::traced;
use super::stretch::Tour;
use super::{admit_tables, by_lifts, by_tour, refuse, Refusal, NO_CELL, TRAIL_CELLS};

/// Tests 1 to 10; `misfit` is the lowest buffer of question, answer and trail that misfits.
fn admit(
    parents: &[u16],
    tables: [&[u16]; 4],
    work: &mut [u16],
    question: &[u16],
    misfit: Option<usize>,
) -> Result<(), Refusal> {
    let n = admit_tables(parents, tables, work, misfit)?;
    if question.is_empty() {
        return refuse(9, 0);
    }
    let off = |x: u16| x >= n as u16;
    if question.iter().fold(false, |any, &x| any | off(x)) {
        let at = question.iter().position(|&x| off(x));
        return refuse(10, at.unwrap_or(0));
    }
    Ok(())
}

/// A question has two cells for each pair, its answer three: carrier, x's branch, y's branch.
fn pairs_misfit(question: &[u16], answer: &[u16]) -> Option<usize> {
    if !question.len().is_multiple_of(2) {
        Some(5)
    } else {
        (answer.len() != question.len() / 2 * 3).then_some(6)
    }
}

/// The carrier of each pair and its branches, by the label table; by the tour table a branch that no HEAD shows.
pub fn pairs_by_labels(
    parents: &[u16],
    label: &[u16],
    tour: &[u16],
    lift: &[u16],
    order: &[u16],
    work: &mut [u16],
    question: &[u16],
    answer: &mut [u16],
) -> Result<(), Refusal> {
    let misfit = pairs_misfit(question, answer);
    admit(parents, [label, tour, lift, order], work, question, misfit)?;
    let tour = Tour::new(parents.len(), label, tour);
    let (pairs, cells) = (question.as_chunks().0, answer.as_chunks_mut().0);
    Labels::new(parents, label).answer(&tour, pairs, cells);
    Ok(())
}

/// The carrier of each pair and its branches, by the tour table.
pub fn pairs_by_tour(
    parents: &[u16],
    label: &[u16],
    tour: &[u16],
    lift: &[u16],
    order: &[u16],
    work: &mut [u16],
    question: &[u16],
    answer: &mut [u16],
) -> Result<(), Refusal> {
    let misfit = pairs_misfit(question, answer);
    admit(parents, [label, tour, lift, order], work, question, misfit)?;
    let tour = Tour::new(parents.len(), label, tour);
    by_tour::answer(&tour, question.as_chunks().0, answer.as_chunks_mut().0);
    Ok(())
}

/// The carrier of each pair and its branches, by the lift table.
pub fn pairs_by_lifts(
    parents: &[u16],
    label: &[u16],
    tour: &[u16],
    lift: &[u16],
    order: &[u16],
    work: &mut [u16],
    question: &[u16],
    answer: &mut [u16],
) -> Result<(), Refusal> {
    let misfit = pairs_misfit(question, answer);
    admit(parents, [label, tour, lift, order], work, question, misfit)?;
    let n = parents.len();
    let (rows, level) = (by_lifts::rows(lift, label, n), &label[2 * n..3 * n]);
    let (pairs, cells) = (question.as_chunks().0, answer.as_chunks_mut().0);
    by_lifts::answer(rows, level, pairs, cells);
    Ok(())
}

/// The carrier of all the listed parts: that of the first and the last in preorder.
pub fn list(
    parents: &[u16],
    label: &[u16],
    tour: &[u16],
    lift: &[u16],
    order: &[u16],
    work: &mut [u16],
    question: &[u16],
    answer: &mut [u16],
) -> Result<(), Refusal> {
    let misfit = (answer.len() != 1).then_some(6);
    admit(parents, [label, tour, lift, order], work, question, misfit)?;
    let pre = &label[..parents.len()];
    let (mut low, mut high) = (question[0], question[0]);
    for &x in question {
        low = if pre[x as usize] < pre[low as usize] {
            x
        } else {
            low
        };
        high = if pre[x as usize] > pre[high as usize] {
            x
        } else {
            high
        };
    }
    answer[0] = Labels::new(parents, label).carrier([low, high]);
    Ok(())
}

/// The carrier of one pair, its trail in `rows` and the count of lifts.
pub fn trail(
    parents: &[u16],
    label: &[u16],
    tour: &[u16],
    lift: &[u16],
    order: &[u16],
    work: &mut [u16],
    question: &[u16],
    answer: &mut [u16],
    rows: &mut [u16],
) -> Result<u64, Refusal> {
    let lengths = [
        (question.len(), 2),
        (answer.len(), 1),
        (rows.len(), TRAIL_CELLS),
    ];
    let misfit = lengths
        .iter()
        .position(|(has, want)| has != want)
        .map(|at| at + 5);
    admit(parents, [label, tour, lift, order], work, question, misfit)?;
    rows.fill(NO_CELL);
    let level = &label[2 * parents.len()..3 * parents.len()];
    let (carrier, lifts) = traced(lift, level, question[0], question[1], rows);
    answer[0] = carrier;
    Ok(lifts)
}

/// The parts that a part carries, in preorder: a stretch of the order table.
pub fn subtree<'a>(
    parents: &[u16],
    label: &[u16],
    tour: &[u16],
    lift: &[u16],
    order: &'a [u16],
    work: &mut [u16],
    part: usize,
) -> Result<&'a [u16], Refusal> {
    let n = admit_tables(parents, [label, tour, lift, order], work, None)?;
    if part >= n {
        return refuse(10, 0);
    }
    let (first, count) = (label[part] as usize - 1, label[n + part] as usize);
    Ok(&order[first..][..count])
}
