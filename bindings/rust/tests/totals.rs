//! Wear by assembly (document 02, 2026-02), worked out by hand: every total, no wrap at the largest counts, and every refusal.

use lca::{calls, Refusal, Tree};

/// Part 1 carries 1 3 4, part 2 carries 2 5 6, part 5 carries 5 6, and the root all.
const SHEET: [u16; 7] = [0, 0, 0, 1, 1, 2, 5];

/// What each part has worn. Each is a power of two, so that a total tells which counts are in it.
const COUNTS: [u32; 7] = [1, 2, 4, 8, 16, 32, 64];

/// The most that a part can have worn.
const MOST: u64 = 4_294_967_295;

fn refusal(number: u32, place: u64) -> Refusal {
    Refusal { number, place }
}

fn chain(n: usize) -> Vec<u16> {
    (0..n).map(|v| v.saturating_sub(1) as u16).collect()
}

/// The totals of a sheet, by the call itself and by a tree, with other numbers in the buffers before.
fn totals(sheet: &[u16], counts: &[u32]) -> Vec<u64> {
    let (mut work, mut totals) = (vec![3; 4 * sheet.len()], vec![5; sheet.len()]);
    assert_eq!(calls::totals(sheet, &mut work, counts, &mut totals), Ok(()));
    assert!(work.iter().all(|&cell| cell == 0));
    assert_eq!(Tree::new(sheet).unwrap().totals(counts).unwrap(), totals);
    totals
}

#[test]
fn the_known_sheet_s_parts_have_their_totals() {
    assert_eq!(totals(&SHEET, &COUNTS), [127, 26, 100, 8, 16, 96, 64]);
    assert_eq!(totals(&SHEET, &[1; 7]), [7, 3, 3, 1, 1, 2, 1]);
    assert_eq!(totals(&SHEET, &[0; 7]), [0; 7]);
    assert_eq!(
        totals(&SHEET, &[0, 0, 0, 0, 9, 0, 0]),
        [9, 9, 0, 0, 9, 0, 0]
    );
}

/// What part 6 has worn is in the total of each part that carries it, and in no other.
#[test]
fn one_count_of_32_bits_is_in_the_totals_above_it() {
    let mut counts = [0; 7];
    counts[6] = u32::MAX;
    assert_eq!(totals(&SHEET, &counts), [MOST, 0, MOST, 0, 0, MOST, MOST]);
}

#[test]
fn sheets_of_one_and_two_parts() {
    assert_eq!(totals(&[0], &[7]), [7]);
    assert_eq!(totals(&[0], &[u32::MAX]), [MOST]);
    // The root is the last part.
    assert_eq!(totals(&[1, 1], &[3, 4]), [3, 7]);
}

#[test]
fn a_chain_and_a_star() {
    assert_eq!(totals(&chain(5), &[1, 2, 3, 4, 5]), [15, 14, 12, 9, 5]);
    // The same chain with its root at the other end.
    assert_eq!(
        totals(&[1, 2, 3, 4, 4], &[1, 2, 3, 4, 5]),
        [1, 3, 6, 10, 15]
    );
    assert_eq!(totals(&[0; 5], &[1, 2, 3, 4, 5]), [15, 2, 3, 4, 5]);
    assert_eq!(totals(&[2; 5], &[1, 2, 3, 4, 5]), [1, 2, 15, 4, 5]);
}

#[test]
fn the_largest_counts_on_the_longest_chain_and_star() {
    let counts = vec![u32::MAX; 16_384];
    // Part v of the chain carries the parts from v on.
    let found = totals(&chain(16_384), &counts);
    let carried = (0..16_384).map(|v| (16_384 - v) * MOST);
    assert!(found.iter().copied().eq(carried));
    assert_eq!(found[0], 70_368_744_161_280);
    let star = totals(&[0; 16_384], &counts);
    assert_eq!(star[0], 70_368_744_161_280);
    assert!(star[1..].iter().all(|&total| total == MOST));
}

/// The call's refusal, with buffers of these lengths. It leaves the totals as they were, and clears work unless it is one of 1 to 3.
fn refused(sheet: &[u16], work: usize, counts: usize, totals: usize) -> Refusal {
    let (mut work, counts, mut totals) = (vec![3; work], vec![4; counts], vec![5; totals]);
    let why = calls::totals(sheet, &mut work, &counts, &mut totals).unwrap_err();
    let left = if why.number <= 3 { 3 } else { 0 };
    assert!(work.iter().all(|&cell| cell == left), "{why}");
    assert!(totals.iter().all(|&total| total == 5), "{why}");
    why
}

#[test]
fn bare_and_oversize() {
    assert_eq!(refused(&[], 0, 0, 0), refusal(1, 0));
    assert_eq!(refused(&[], 4, 1, 1), refusal(1, 0));
    let long = chain(16_385);
    assert_eq!(refused(&long, 4 * 16_385, 16_385, 16_385), refusal(2, 0));
    assert_eq!(refused(&long, 0, 0, 0), refusal(2, 0));
}

#[test]
fn a_misfit_names_its_buffer() {
    for work in [0, 7, 27, 29] {
        assert_eq!(refused(&SHEET, work, 7, 7), refusal(3, 4));
    }
    for other in [0, 6, 8, 28] {
        assert_eq!(refused(&SHEET, 28, other, 7), refusal(3, 9));
        assert_eq!(refused(&SHEET, 28, 7, other), refusal(3, 10));
    }
}

#[test]
fn the_lowest_misfit_is_named() {
    assert_eq!(refused(&SHEET, 27, 6, 6), refusal(3, 4));
    assert_eq!(refused(&SHEET, 29, 7, 8), refusal(3, 4));
    assert_eq!(refused(&SHEET, 29, 8, 7), refusal(3, 4));
    assert_eq!(refused(&SHEET, 28, 8, 6), refusal(3, 9));
    assert_eq!(refused(&SHEET, 28, 0, 0), refusal(3, 9));
}

#[test]
fn sheets_that_are_not_one_tree() {
    let cases: [(&[u16], Refusal); 9] = [
        (&[5, 1, 2], refusal(4, 0)),
        (&[0, 0, 3, 9], refusal(4, 3)),
        (&[0, 2], refusal(4, 1)),
        (&[1, 0], refusal(5, 0)),
        (&[0, 1], refusal(6, 1)),
        (&[2, 1, 2, 3], refusal(6, 2)),
        (&[0, 2, 1], refusal(7, 1)),
        (&[0, 0, 3, 4, 2], refusal(7, 2)),
        // Part 1 is not in the loop of 2 and 3, but climbs into it.
        (&[0, 3, 3, 2], refusal(7, 1)),
    ];
    for (sheet, why) in cases {
        let n = sheet.len();
        assert_eq!(refused(sheet, 4 * n, n, n), why, "{sheet:?}");
        // A misfit comes before what is wrong with the sheet.
        assert_eq!(refused(sheet, 4 * n, n, n + 1), refusal(3, 10));
    }
}

#[test]
fn a_tree_refuses_counts_of_another_length() {
    let tree = Tree::new(&SHEET).unwrap();
    for counts in [&COUNTS[..6], &[1; 8], &[]] {
        assert_eq!(tree.totals(counts), Err(refusal(3, 9)));
    }
}
