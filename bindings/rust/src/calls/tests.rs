//! What the C functions leave in `value`, and a subtree's in `start`, on the sheet `1 1`; of totals, every cell.

use super::answers::Answering;
use crate::ffi;

const PARENTS: [u16; 2] = [1, 1];

/// The sheet's own tables, by hand: the root is part 1, and part 0 comes second.
const LABEL: [u16; 12] = [2, 1, 1, 2, 1, 0, 2, 2, 2, 2, 65_535, 1];
const TOUR: [u16; 11] = [1, 0, 1, 1, 0, 0, 1, 2, 0, 2, 65_535];
const LIFT: [u16; 4] = [1, 1, 1, 1];
const ORDER: [u16; 2] = [1, 0];

/// What `value` and `start` hold before a call.
const BEFORE: u64 = u64::MAX;

const PAIRS: [Answering; 3] = [
    ffi::lca_pairs_by_labels,
    ffi::lca_pairs_by_tour,
    ffi::lca_pairs_by_lifts,
];

/// Asks by `call`, with so many cells for the answer: the result, the answer and the value.
fn ask<const CELLS: usize>(
    call: Answering,
    question: &[u16],
    label: &[u16],
) -> (u32, [u16; CELLS], u64) {
    let (mut work, mut answer, mut value) = ([0; 8], [9; CELLS], BEFORE);
    // SAFETY: each pointer and length are one array's, and no two of those overlap.
    let number = unsafe {
        call(
            PARENTS.as_ptr(),
            PARENTS.len(),
            label.as_ptr(),
            label.len(),
            TOUR.as_ptr(),
            TOUR.len(),
            LIFT.as_ptr(),
            LIFT.len(),
            ORDER.as_ptr(),
            ORDER.len(),
            work.as_mut_ptr(),
            work.len(),
            question.as_ptr(),
            question.len(),
            answer.as_mut_ptr(),
            answer.len(),
            &mut value,
        )
    };
    (number, answer, value)
}

/// A pair has the carrier, the branch towards x and the branch towards y, a list the carrier alone.
#[test]
fn an_accepted_question_s_value_is_0() {
    for call in PAIRS {
        assert_eq!(ask(call, &[0, 0], &LABEL), (0, [0, 0, 0], 0));
        assert_eq!(ask(call, &[0, 1], &LABEL), (0, [1, 0, 1], 0));
        assert_eq!(ask(call, &[1, 0, 1, 1], &LABEL), (0, [1, 1, 0, 1, 1, 1], 0));
    }
    assert_eq!(ask(ffi::lca_list, &[0, 0], &LABEL), (0, [0], 0));
    assert_eq!(ask(ffi::lca_list, &[0, 1], &LABEL), (0, [1], 0));
}

/// The refusals of a call with so many cells for the answer, which fit its question.
fn refuses<const CELLS: usize>(call: Answering) {
    let untouched = [9; CELLS];
    assert_eq!(ask(call, &[0, 2], &LABEL), (10, untouched, 1));
    assert_eq!(ask(call, &[0, 0], &LABEL[1..]), (3, untouched, 1));
    let mut stale = LABEL;
    stale[11] = 0;
    assert_eq!(ask(call, &[0, 2], &stale), (8, untouched, 11));
}

#[test]
fn a_refused_question_s_value_is_the_place() {
    for call in PAIRS {
        refuses::<3>(call);
        assert_eq!(ask(call, &[0, 1], &LABEL), (3, [9], 6));
        assert_eq!(ask(call, &[0, 1], &LABEL), (3, [9; 2], 6));
        assert_eq!(ask(call, &[0, 1], &LABEL), (3, [9; 4], 6));
        assert_eq!(ask(call, &[0, 1, 0], &LABEL), (3, [9; 4], 5));
    }
    refuses::<1>(ffi::lca_list);
    assert_eq!(ask(ffi::lca_list, &[0, 1], &LABEL), (3, [9; 3], 6));
}

#[test]
fn an_accepted_check_s_value_is_0_and_a_refused_one_s_the_place() {
    for (parents, result) in [([1, 1], (0, 0)), ([0, 1], (6, 1)), ([1, 0], (5, 0))] {
        let (mut work, mut value) = ([7; 8], BEFORE);
        // SAFETY: each pointer and length are one array's, and no two of those overlap.
        let number =
            unsafe { ffi::lca_check(parents.as_ptr(), 2, work.as_mut_ptr(), 8, &mut value) };
        assert_eq!((number, value), result);
        assert_eq!(work, [0; 8]);
    }
}

#[test]
fn building_and_comparing_leave_0() {
    let (mut label, mut tour, mut lift, mut order) = ([9; 12], [9; 11], [9; 4], [9; 2]);
    let (mut work, mut built, mut compared) = ([7; 8], BEFORE, BEFORE);
    // SAFETY: each pointer and length are one array's, and no two of those overlap.
    let numbers = unsafe {
        let build = ffi::lca_build(
            PARENTS.as_ptr(),
            2,
            label.as_mut_ptr(),
            12,
            tour.as_mut_ptr(),
            11,
            lift.as_mut_ptr(),
            4,
            order.as_mut_ptr(),
            2,
            work.as_mut_ptr(),
            8,
            &mut built,
        );
        let compare = ffi::lca_compare(
            PARENTS.as_ptr(),
            2,
            label.as_ptr(),
            12,
            tour.as_ptr(),
            11,
            lift.as_ptr(),
            4,
            order.as_ptr(),
            2,
            work.as_mut_ptr(),
            8,
            &mut compared,
        );
        [build, compare]
    };
    assert_eq!((numbers, built, compared), ([0, 0], 0, 0));
    assert_eq!((label, tour, lift, order), (LABEL, TOUR, LIFT, ORDER));
}

#[test]
fn a_trail_s_value_is_its_count_of_lifts() {
    for (question, result) in [
        ([0, 0], (0, 0, 0)),
        ([0, 1], (0, 1, 1)),
        ([0, 2], (10, 9, 1)),
    ] {
        let (mut work, mut answer, mut rows, mut value) = ([7; 8], [9], [9; 64], BEFORE);
        // SAFETY: each pointer and length are one array's, and no two of those overlap.
        let number = unsafe {
            ffi::lca_trail(
                PARENTS.as_ptr(),
                PARENTS.len(),
                LABEL.as_ptr(),
                LABEL.len(),
                TOUR.as_ptr(),
                TOUR.len(),
                LIFT.as_ptr(),
                LIFT.len(),
                ORDER.as_ptr(),
                ORDER.len(),
                work.as_mut_ptr(),
                work.len(),
                question.as_ptr(),
                question.len(),
                answer.as_mut_ptr(),
                answer.len(),
                rows.as_mut_ptr(),
                rows.len(),
                &mut value,
            )
        };
        assert_eq!((number, answer[0], value), result);
    }
}

/// Asks for a part's subtree, with this order table: the result, `start`, `value` and work.
fn subtree(part: usize, order: &[u16]) -> (u32, u64, u64, [u16; 8]) {
    let (mut work, mut start, mut value) = ([7; 8], BEFORE, BEFORE);
    // SAFETY: each pointer and length are one array's, and no two of those overlap.
    let number = unsafe {
        ffi::lca_subtree(
            PARENTS.as_ptr(),
            PARENTS.len(),
            LABEL.as_ptr(),
            LABEL.len(),
            TOUR.as_ptr(),
            TOUR.len(),
            LIFT.as_ptr(),
            LIFT.len(),
            order.as_ptr(),
            order.len(),
            work.as_mut_ptr(),
            work.len(),
            part,
            &mut start,
            &mut value,
        )
    };
    (number, start, value, work)
}

#[test]
fn a_subtree_s_value_is_its_count_and_its_start_its_first_cell() {
    assert_eq!(subtree(1, &ORDER), (0, 0, 2, [0; 8]));
    assert_eq!(subtree(0, &ORDER), (0, 1, 1, [0; 8]));
}

#[test]
fn a_refused_subtree_s_value_is_the_place_and_its_start_is_0() {
    for part in [2, 3, 65_535, 65_536, usize::MAX] {
        assert_eq!(subtree(part, &ORDER), (10, 0, 0, [0; 8]));
        // 12, 11 and 4 cells stand before the order table's.
        assert_eq!(subtree(part, &[1, 1]), (8, 0, 28, [0; 8]));
        assert_eq!(subtree(part, &ORDER[1..]), (3, 0, 8, [7; 8]));
    }
}

/// Asks for totals, with these counts: the result, `value`, the totals and work.
fn totals(parents: &[u16; 2], counts: &[u32]) -> (u32, u64, [u64; 2], [u16; 8]) {
    let (mut work, mut totals, mut value) = ([7; 8], [9; 2], BEFORE);
    // SAFETY: each pointer and length are one array's, and no two of those overlap.
    let number = unsafe {
        ffi::lca_totals(
            parents.as_ptr(),
            parents.len(),
            work.as_mut_ptr(),
            work.len(),
            counts.as_ptr(),
            counts.len(),
            totals.as_mut_ptr(),
            totals.len(),
            &mut value,
        )
    };
    (number, value, totals, work)
}

#[test]
fn accepted_totals_value_is_0_and_a_refused_call_s_the_place() {
    assert_eq!(totals(&PARENTS, &[3, 4]), (0, 0, [3, 7], [0; 8]));
    let most = u32::MAX;
    let twice = 2 * u64::from(most);
    assert_eq!(
        totals(&PARENTS, &[most, most]),
        (0, 0, [most.into(), twice], [0; 8])
    );
    assert_eq!(totals(&[0, 1], &[3, 4]), (6, 1, [9; 2], [0; 8]));
    assert_eq!(totals(&PARENTS, &[3]), (3, 9, [9; 2], [7; 8]));
}
