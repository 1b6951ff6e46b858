//! The calls that answer: pairs by each route, a list, the trail of one pair.

use super::outcome;
use crate::ffi;
use crate::Refusal;

/// The carrier of each pair and its branches towards x and y, by the label table (tests 1 to 11), in constant time a further pair.
pub fn pairs_by_labels(
    parents: &[u16],
    label: &[u16],
    tour: &[u16],
    lift: &[u16],
    order: &[u16],
    work: &mut [u16],
    question: &[u16],
    answer: &mut [u16],
) -> Result<(), Refusal> {
    let (call, tables) = (ffi::lca_pairs_by_labels, [label, tour, lift, order]);
    ask(call, parents, tables, work, question, answer)
}

/// The carrier of each pair and its branches towards x and y, by the tour table (tests 1 to 11), in constant time a further pair.
pub fn pairs_by_tour(
    parents: &[u16],
    label: &[u16],
    tour: &[u16],
    lift: &[u16],
    order: &[u16],
    work: &mut [u16],
    question: &[u16],
    answer: &mut [u16],
) -> Result<(), Refusal> {
    let (call, tables) = (ffi::lca_pairs_by_tour, [label, tour, lift, order]);
    ask(call, parents, tables, work, question, answer)
}

/// The carrier of each pair and its branches towards x and y, by the lift table (tests 1 to 11), in up to about 2 log n + 2 steps a further
/// pair, and constant time for the branches.
pub fn pairs_by_lifts(
    parents: &[u16],
    label: &[u16],
    tour: &[u16],
    lift: &[u16],
    order: &[u16],
    work: &mut [u16],
    question: &[u16],
    answer: &mut [u16],
) -> Result<(), Refusal> {
    let (call, tables) = (ffi::lca_pairs_by_lifts, [label, tour, lift, order]);
    ask(call, parents, tables, work, question, answer)
}

/// The carrier of all the parts listed (tests 1 to 11).
pub fn list(
    parents: &[u16],
    label: &[u16],
    tour: &[u16],
    lift: &[u16],
    order: &[u16],
    work: &mut [u16],
    question: &[u16],
    answer: &mut [u16],
) -> Result<(), Refusal> {
    let tables = [label, tour, lift, order];
    ask(ffi::lca_list, parents, tables, work, question, answer)
}

/// The carrier of one pair, and its trail (tests 1 to 11): a row of two cells in `rows` for each lift, x's side and then y's, and
/// [`NO_CELL`](crate::cells::NO_CELL) after them. Gives the count of lifts.
pub fn trail(
    parents: &[u16],
    label: &[u16],
    tour: &[u16],
    lift: &[u16],
    order: &[u16],
    work: &mut [u16],
    question: &[u16],
    answer: &mut [u16],
    rows: &mut [u16],
) -> Result<u64, Refusal> {
    let mut value = 0;
    // SAFETY: as in `super::compare`; the question too is only read, and `answer` and `rows` overlap nothing.
    let number = unsafe {
        ffi::lca_trail(
            parents.as_ptr(),
            parents.len(),
            label.as_ptr(),
            label.len(),
            tour.as_ptr(),
            tour.len(),
            lift.as_ptr(),
            lift.len(),
            order.as_ptr(),
            order.len(),
            work.as_mut_ptr(),
            work.len(),
            question.as_ptr(),
            question.len(),
            answer.as_mut_ptr(),
            answer.len(),
            rows.as_mut_ptr(),
            rows.len(),
            &mut value,
        )
    };
    outcome(number, value)
}

/// A C function for pairs or a list: a pointer and a length for each of parents, label, tour, lift, order, work, question and answer.
pub(super) type Answering = unsafe extern "C" fn(
    *const u16,
    usize,
    *const u16,
    usize,
    *const u16,
    usize,
    *const u16,
    usize,
    *const u16,
    usize,
    *mut u16,
    usize,
    *const u16,
    usize,
    *mut u16,
    usize,
    *mut u64,
) -> u32;

#[inline]
fn ask(
    call: Answering,
    parents: &[u16],
    [label, tour, lift, order]: [&[u16]; 4],
    work: &mut [u16],
    question: &[u16],
    answer: &mut [u16],
) -> Result<(), Refusal> {
    let mut value = 0;
    // SAFETY: as in `trail`; `call` is one of the library's functions of this type, each of which takes any lengths and contents.
    let number = unsafe {
        call(
            parents.as_ptr(),
            parents.len(),
            label.as_ptr(),
            label.len(),
            tour.as_ptr(),
            tour.len(),
            lift.as_ptr(),
            lift.len(),
            order.as_ptr(),
            order.len(),
            work.as_mut_ptr(),
            work.len(),
            question.as_ptr(),
            question.len(),
            answer.as_mut_ptr(),
            answer.len(),
            &mut value,
        )
    };
    outcome(number, value).map(drop)
}
