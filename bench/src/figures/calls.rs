//! The calls that are measured on one sheet, with the buffers that they are lent.

use std::hint::black_box;

use super::LISTED;
use crate::buffers::Buffers;
use crate::candidates::{Calls, Outcome, Who, ASKED, RUST};
use crate::climb;
use crate::pool::Pool;

/// The buffers of one sheet, lent to every candidate in turn.
pub struct State {
    pub own: Buffers,
    copy: Buffers,
    pool: Pool,
    answer: Vec<u16>,
    trail: Vec<u16>,
}

impl State {
    /// The buffers of a sheet whose tables are built, and questions of at most so many pairs.
    pub fn new(parents: Vec<u16>, pairs: usize) -> Self {
        let (n, own) = (parents.len(), Buffers::new(parents));
        let mut state = State {
            copy: own.clone(),
            pool: Pool::new(n, ASKED),
            answer: vec![0; 3 * pairs],
            trail: vec![0; lca::cells::TRAIL],
            own,
        };
        build(&RUST, &mut state);
        state
    }
}

fn accepted(outcome: Outcome) {
    black_box(outcome).expect("the call is accepted");
}

pub fn check(calls: &Calls, s: &mut State) {
    accepted((calls.check)(&s.own.parents, &mut s.own.work));
}

pub fn build(calls: &Calls, s: &mut State) {
    let b = &mut s.own;
    accepted((calls.build)(
        &b.parents,
        &mut b.label,
        &mut b.tour,
        &mut b.lift,
        &mut b.order,
        &mut b.work,
    ));
}

pub fn compare(calls: &Calls, s: &mut State) {
    let b = &mut s.own;
    accepted((calls.compare)(
        &b.parents,
        &b.label,
        &b.tour,
        &b.lift,
        &b.order,
        &mut b.work,
    ));
}

pub fn pairs(calls: &Calls, route: usize, count: usize, s: &mut State) {
    let question = s.pool.next(calls.who as usize, 2 * count);
    let (b, answer) = (&mut s.own, &mut s.answer[..3 * count]);
    let [label, tour, lift, order] = [&b.label, &b.tour, &b.lift, &b.order];
    accepted((calls.pairs[route])(
        &b.parents,
        label,
        tour,
        lift,
        order,
        &mut b.work,
        question,
        answer,
    ));
}

pub fn list(calls: &Calls, s: &mut State) {
    let question = s.pool.next(calls.who as usize, LISTED);
    let (b, answer) = (&mut s.own, &mut s.answer[..1]);
    let [label, tour, lift, order] = [&b.label, &b.tour, &b.lift, &b.order];
    accepted((calls.list)(
        &b.parents,
        label,
        tour,
        lift,
        order,
        &mut b.work,
        question,
        answer,
    ));
}

pub fn trail(calls: &Calls, s: &mut State) {
    let question = s.pool.next(calls.who as usize, 2);
    let (b, answer) = (&mut s.own, &mut s.answer[..1]);
    let [label, tour, lift, order] = [&b.label, &b.tour, &b.lift, &b.order];
    accepted((calls.trail)(
        &b.parents,
        label,
        tour,
        lift,
        order,
        &mut b.work,
        question,
        answer,
        &mut s.trail,
    ));
}

pub fn subtree(calls: &Calls, s: &mut State) {
    let part = s.pool.next(calls.who as usize, 1)[0] as usize;
    let b = &mut s.own;
    let [label, tour, lift, order] = [&b.label, &b.tour, &b.lift, &b.order];
    let found = (calls.subtree)(&b.parents, label, tour, lift, order, &mut b.work, part);
    black_box(found).expect("the call is accepted");
}

pub fn totals(calls: &Calls, s: &mut State) {
    let b = &mut s.own;
    accepted((calls.totals)(
        &b.parents,
        &mut b.work,
        &b.counts,
        &mut b.totals,
    ));
}

pub fn byte_compare(s: &mut State) {
    black_box(s.own.tables() == s.copy.tables());
}

pub fn memory_copy(s: &mut State) {
    s.copy.label.copy_from_slice(&s.own.label);
    s.copy.tour.copy_from_slice(&s.own.tour);
    s.copy.lift.copy_from_slice(&s.own.lift);
    s.copy.order.copy_from_slice(&s.own.order);
    black_box(&mut s.copy);
}

pub fn climb_pairs(count: usize, s: &mut State) {
    let question = s.pool.next(Who::Climber as usize, 2 * count);
    for (pair, z) in question.chunks_exact(2).zip(s.answer.chunks_exact_mut(3)) {
        z.copy_from_slice(&climb::pair(&s.own.parents, pair[0], pair[1]));
    }
    black_box(&mut s.answer);
}

pub fn climb_pair(s: &mut State) {
    climb_pairs(1, s);
}

pub fn climb_list(s: &mut State) {
    let question = s.pool.next(Who::Climber as usize, LISTED);
    black_box(climb::list(&s.own.parents, question));
}
