//! The first cell that isn't the sheet's own, in tables of which one is known to be wrong. Sections are made in `work`, one after another;
//! those passed are right and may be read.

use super::{label, log2, order, tour, NO_CELL};

/// The place of the first difference, the tables end to end; the sheet is a tree.
#[cold]
pub fn first_difference(
    parents: &[u16],
    root: u16,
    [label, tour, lift, order]: [&[u16]; 4],
    work: &mut [u16],
) -> usize {
    let (third, fourth) = (
        label.len() + tour.len(),
        label.len() + tour.len() + lift.len(),
    );
    in_label(parents, root, label, work)
        .or_else(|| in_tour(parents, label, tour, work).map(|at| label.len() + at))
        .or_else(|| in_lift(parents, lift).map(|at| third + at))
        .or_else(|| in_order(label, order, work).map(|at| fourth + at))
        .unwrap_or(fourth + order.len())
}

fn differs<'a>(lent: &[u16], own: impl IntoIterator<Item = &'a u16>) -> Option<usize> {
    lent.iter().zip(own).position(|(a, b)| a != b)
}

fn in_label(parents: &[u16], root: u16, label: &[u16], work: &mut [u16]) -> Option<usize> {
    let n = parents.len();
    let [pre, size, level, inlabel, ascendant, head] = label::columns(label);
    let (a, rest) = work.split_at_mut(n);
    let (order, rest) = rest.split_at_mut(n);
    let (b, c) = rest.split_at_mut(n);
    let c = &mut c[..n];
    label::peel(parents, root, [a, order, b]);
    label::offsets(parents, root, a, b, c);
    b[root as usize] = n as u16;
    label::number(parents, order, c, a);
    if let Some(at) = differs(pre, &*c) {
        return Some(at);
    }
    if let Some(at) = differs(size, &*b) {
        return Some(n + at);
    }
    if let Some(at) = differs(level, &*a) {
        return Some(2 * n + at);
    }
    let wrong = |v: &usize| inlabel[*v] != label::inlabel_of(pre[*v], size[*v]);
    if let Some(at) = (0..n).find(wrong) {
        return Some(3 * n + at);
    }
    label::added(parents, inlabel, b);
    label::ascend(parents, order, b, a);
    if let Some(at) = differs(ascendant, &*a) {
        return Some(4 * n + at);
    }
    label::heads(order, inlabel, a);
    differs(head, &*a).map(|at| 5 * n + at)
}

fn in_tour(parents: &[u16], label: &[u16], tour: &[u16], work: &mut [u16]) -> Option<usize> {
    let n = parents.len();
    let visits = 2 * n - 1;
    let [pre, size, level, ..] = label::columns(label);
    let [e, r, rows] = tour::sections(tour, n);
    let (own, first) = work.split_at_mut(2 * n);
    let (own, first) = (&mut own[..visits], &mut first[..n]);
    for (v, cell) in first.iter_mut().enumerate() {
        *cell = tour::first_visit(pre[v], level[v]);
    }
    tour::visit(parents, first, size, own);
    if let Some(at) = differs(e, &*own) {
        return Some(at);
    }
    if let Some(at) = differs(r, &*first) {
        return Some(visits + at);
    }
    if let Some(at) = (0..visits).find(|&i| rows[i] != i as u16) {
        return Some(visits + n + at);
    }
    for j in 1..=log2(visits) {
        let (last, row) = rows[(j - 1) * visits..(j + 1) * visits].split_at(visits);
        let half = 1 << (j - 1);
        let cell = |i: usize| {
            let level_at = |p: u16| level[e[p as usize] as usize];
            match i + 2 * half <= visits {
                true if level_at(last[i + half]) < level_at(last[i]) => last[i + half],
                true => last[i],
                false => NO_CELL,
            }
        };
        if let Some(at) = (0..visits).find(|&i| row[i] != cell(i)) {
            return Some(visits + n + j * visits + at);
        }
    }
    None
}

fn in_lift(parents: &[u16], lift: &[u16]) -> Option<usize> {
    let n = parents.len();
    if let Some(at) = differs(lift, parents) {
        return Some(at);
    }
    (n..lift.len()).find(|&i| {
        let last = &lift[(i / n - 1) * n..][..n];
        lift[i] != last[last[i % n] as usize]
    })
}

fn in_order(label: &[u16], order: &[u16], work: &mut [u16]) -> Option<usize> {
    let n = order.len();
    order::fill(&label[..n], &mut work[..n]);
    differs(order, &work[..n])
}
