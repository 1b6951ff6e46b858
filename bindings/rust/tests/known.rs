//! Document 01's known sheets and the card of numbers, worked out by hand. Answers to pairs are in `branches.rs`, subtrees in `subtrees.rs`,
//! totals in `totals.rs`.

use lca::{calls, Refusal, Trail, Tree};

const SHEET: [u16; 7] = [0, 0, 0, 1, 1, 2, 5];
const NONE: u16 = 65_535;

#[rustfmt::skip]
const LABEL: [u16; 42] = [
    1, 2, 5, 3, 4, 6, 7, // PREORDER
    7, 3, 3, 1, 1, 2, 1, // SIZE
    0, 1, 1, 2, 2, 2, 3, // LEVEL
    4, 4, 6, 3, 4, 6, 7, // INLABEL
    4, 4, 6, 5, 4, 6, 7, // ASCENDANT
    NONE, NONE, 3, 0, NONE, 2, 6, // HEAD
];

// The levels of the visits are 0 1 2 1 2 1 0 1 2 3 2 1 0.
#[rustfmt::skip]
const TOUR: [u16; 72] = [
    0, 1, 3, 1, 4, 1, 0, 2, 5, 6, 5, 2, 0, // E
    0, 1, 7, 2, 4, 8, 9, // R
    0, 1, 2, 3, 4, 5, 6, 7, 8, 9, 10, 11, 12,
    0, 1, 3, 3, 5, 6, 6, 7, 8, 10, 11, 12, NONE,
    0, 1, 3, 6, 6, 6, 6, 7, 11, 12, NONE, NONE, NONE,
    0, 6, 6, 6, 6, 6, NONE, NONE, NONE, NONE, NONE, NONE, NONE,
];

#[rustfmt::skip]
const LIFT: [u16; 21] = [
    0, 0, 0, 1, 1, 2, 5,
    0, 0, 0, 0, 0, 0, 2,
    0, 0, 0, 0, 0, 0, 0,
];

const ORDER: [u16; 7] = [0, 1, 3, 4, 2, 5, 6];

fn refusal(number: u32, place: u64) -> Refusal {
    Refusal { number, place }
}

fn chain(n: usize) -> Vec<u16> {
    (0..n).map(|v| v.saturating_sub(1) as u16).collect()
}

#[test]
fn the_sheet_of_seven_parts_has_its_tables() {
    let tree = Tree::new(&SHEET).unwrap();
    assert_eq!(tree.parents(), SHEET);
    assert_eq!(tree.label(), LABEL);
    assert_eq!(tree.tour(), TOUR);
    assert_eq!(tree.lift(), LIFT);
    assert_eq!(tree.order(), ORDER);
    let kept = Tree::from_tables(&SHEET, &LABEL, &TOUR, &LIFT, &ORDER);
    assert_eq!(kept, Ok(tree));
}

#[test]
fn its_trails_have_their_rows() {
    let tree = Tree::new(&SHEET).unwrap();
    let trail = |carrier, rows: &[(u16, u16)]| {
        let rows = rows.to_vec();
        Ok(Trail { carrier, rows })
    };
    assert_eq!(tree.trail(6, 6), trail(6, &[]));
    assert_eq!(tree.trail(3, 4), trail(1, &[(1, 1)]));
    assert_eq!(tree.trail(0, 6), trail(0, &[(0, 2), (0, 0)]));
    assert_eq!(tree.trail(3, 6), trail(0, &[(3, 5), (1, 2), (0, 0)]));
    assert_eq!(tree.trail(6, 3), trail(0, &[(5, 3), (2, 1), (0, 0)]));
    assert_eq!(tree.trail(3, 6).unwrap().lifts(), 3);
}

#[test]
fn its_lists_have_their_carriers() {
    let tree = Tree::new(&SHEET).unwrap();
    assert_eq!(tree.list(&[6, 5, 2]), Ok(2));
    assert_eq!(tree.list(&[4]), Ok(4));
    assert_eq!(tree.list(&[4, 3, 3, 4]), Ok(1));
    assert_eq!(tree.list(&[3, 4, 6]), Ok(0));
}

#[test]
fn a_trail_s_unused_cells_become_65535() {
    let (mut work, mut answer, mut rows) = ([5; 28], [5], [5; 64]);
    let lifts = calls::trail(
        &SHEET,
        &LABEL,
        &TOUR,
        &LIFT,
        &ORDER,
        &mut work,
        &[0, 6],
        &mut answer,
        &mut rows,
    );
    assert_eq!((lifts, answer, work), (Ok(2), [0], [0; 28]));
    assert_eq!(rows[..4], [0, 2, 0, 0]);
    assert_eq!(rows[4..], [NONE; 60]);
}

#[test]
fn a_sheet_of_one_part() {
    let tree = Tree::new(&[0]).unwrap();
    assert_eq!(tree.label(), [1, 1, 0, 1, 1, 0]);
    assert_eq!(tree.tour(), [0, 0, 0]);
    assert_eq!(tree.lift(), [0]);
    assert_eq!(tree.order(), [0]);
    assert_eq!(tree.carrier(0, 0), Ok(0));
    assert_eq!(tree.carrier(0, 1), Err(refusal(10, 1)));
}

#[test]
fn a_sheet_whose_root_is_its_last_part() {
    let tree = Tree::new(&[1, 1]).unwrap();
    assert_eq!(tree.label(), [2, 1, 1, 2, 1, 0, 2, 2, 2, 2, NONE, 1]);
    assert_eq!(tree.tour(), [1, 0, 1, 1, 0, 0, 1, 2, 0, 2, NONE]);
    assert_eq!(tree.lift(), [1, 1, 1, 1]);
    assert_eq!(tree.order(), [1, 0]);
    assert_eq!(tree.carrier(0, 1), Ok(1));
}

#[test]
fn bare_and_oversize() {
    assert_eq!(Tree::check(&[]), Err(refusal(1, 0)));
    assert_eq!(Tree::new(&[]), Err(refusal(1, 0)));
    assert_eq!(Tree::check(&chain(16_384)), Ok(()));
    assert_eq!(Tree::check(&chain(16_385)), Err(refusal(2, 0)));
    assert_eq!(Tree::new(&chain(16_385)), Err(refusal(2, 0)));
}

#[test]
fn the_longest_chain_is_answered() {
    let tree = Tree::new(&chain(16_384)).unwrap();
    assert_eq!(tree.carrier(16_383, 10_000), Ok(10_000));
    // From level 16,383 to level 0 in 14 ones.
    let trail = tree.trail(16_383, 0).unwrap();
    assert_eq!((trail.carrier, trail.lifts()), (0, 14));
    assert_eq!(trail.rows[0], (16_383 - 8_192, 0));
    assert_eq!(tree.carrier(0, 16_384), Err(refusal(10, 1)));
}

/// The exact lengths of buffers 1 to 8 for a trail.
const EXACT: [usize; 8] = [42, 72, 21, 28, 2, 1, 64, 7];

/// A trail's refusal where these buffers have these lengths. It changes nothing.
fn misfit(lengths: &[(usize, usize)]) -> Refusal {
    let mut lent = EXACT.map(|cells| vec![3; cells]);
    for &(buffer, length) in lengths {
        lent[buffer - 1].resize(length, 3);
    }
    let [label, tour, lift, work, question, answer, rows, order] = &mut lent;
    let result = calls::trail(
        &SHEET, label, tour, lift, order, work, question, answer, rows,
    );
    assert!(lent.concat().iter().all(|&cell| cell == 3));
    result.unwrap_err()
}

#[test]
fn a_misfit_names_its_buffer_and_changes_nothing() {
    for buffer in 1..=8 {
        for length in [EXACT[buffer - 1] - 1, EXACT[buffer - 1] + 1] {
            assert_eq!(misfit(&[(buffer, length)]), refusal(3, buffer as u64));
        }
    }
    // Three cells are for a pair by a route.
    assert_eq!(misfit(&[(6, 3)]), refusal(3, 6));
}

#[test]
fn the_lowest_misfit_is_named_and_the_order_table_is_the_highest() {
    assert_eq!(misfit(&[(7, 63), (8, 8)]), refusal(3, 7));
    assert_eq!(misfit(&[(6, 0), (8, 0)]), refusal(3, 6));
    assert_eq!(misfit(&[(5, 3), (7, 65), (8, 6)]), refusal(3, 5));
    assert_eq!(misfit(&[(3, 20), (8, 6)]), refusal(3, 3));
    assert_eq!(misfit(&[(8, 6)]), refusal(3, 8));
}

#[test]
fn an_odd_question_is_a_misfit() {
    let (mut work, mut answer) = ([3; 28], [3; 3]);
    let result = calls::pairs_by_tour(
        &SHEET,
        &LABEL,
        &TOUR,
        &LIFT,
        &ORDER,
        &mut work,
        &[3, 4, 0],
        &mut answer,
    );
    assert_eq!(result, Err(refusal(3, 5)));
    assert_eq!((work, answer), ([3; 28], [3; 3]));
}

#[test]
fn sheets_that_are_not_one_tree() {
    let cases: [(&[u16], Refusal); 9] = [
        (&[5, 1, 2], refusal(4, 0)),
        (&[0, 0, 3, 9], refusal(4, 3)),
        (&[0, 2], refusal(4, 1)),
        (&[1, 0], refusal(5, 0)),
        (&[0, 1], refusal(6, 1)),
        (&[2, 1, 2, 3], refusal(6, 2)),
        (&[0, 2, 1], refusal(7, 1)),
        (&[0, 0, 3, 4, 2], refusal(7, 2)),
        // Part 1 is not in the loop of 2 and 3, but climbs into it.
        (&[0, 3, 3, 2], refusal(7, 1)),
    ];
    for (parents, why) in cases {
        assert_eq!(Tree::check(parents), Err(why), "{parents:?}");
        assert_eq!(Tree::new(parents), Err(why), "{parents:?}");
        assert_eq!(Tree::try_from(parents), Err(why), "{parents:?}");
    }
}

#[test]
fn stale_cells_are_counted_through_the_tables() {
    // The order table's cells are 42 + 72 + 21 on.
    for place in [0, 41, 42, 54, 113, 114, 134, 135, 138, 141] {
        let mut tables = [&LABEL[..], &TOUR, &LIFT, &ORDER].concat();
        tables[place] ^= 1;
        let (label, rest) = tables.split_at(42);
        let (tour, rest) = rest.split_at(72);
        let (lift, order) = rest.split_at(21);
        let result = Tree::from_tables(&SHEET, label, tour, lift, order);
        assert_eq!(result, Err(refusal(8, place as u64)));
    }
}

#[test]
fn sizes_that_add_up_only_modulo_65536_are_stale() {
    // The root's SIZE is one more than 3 and 3. 65,535 and 7 come to 65,542, of which 16 bits are 6.
    let mut label = LABEL;
    label[8] = 65_535;
    label[9] = 7;
    let result = Tree::from_tables(&SHEET, &label, &TOUR, &LIFT, &ORDER);
    assert_eq!(result, Err(refusal(8, 8)));
}

#[test]
fn the_largest_sizes_that_can_be_lent_are_stale() {
    let star = Tree::new(&[0; 16_384]).unwrap();
    let mut label = star.label().to_vec();
    label[16_384 + 1..2 * 16_384].fill(65_535);
    let result = Tree::from_tables(
        star.parents(),
        &label,
        star.tour(),
        star.lift(),
        star.order(),
    );
    assert_eq!(result, Err(refusal(8, 16_384 + 1)));
}

#[test]
fn questions_that_cannot_be_answered() {
    let tree = Tree::new(&SHEET).unwrap();
    assert_eq!(tree.list(&[]), Err(refusal(9, 0)));
    assert_eq!(tree.pairs_by_labels(&[]), Err(refusal(9, 0)));
    assert_eq!(tree.pairs_by_tour(&[(3, 4), (0, 7)]), Err(refusal(10, 3)));
    assert_eq!(tree.pairs_by_lifts(&[(7, 9)]), Err(refusal(10, 0)));
    assert_eq!(tree.list(&[6, NONE, 7]), Err(refusal(10, 1)));
    assert_eq!(tree.trail(0, 7), Err(refusal(10, 1)));
}

#[test]
fn what_is_only_read_may_be_lent_twice() {
    let (mut work, mut answer) = ([3; 28], [3]);
    let result = calls::list(
        &SHEET,
        &LABEL,
        &TOUR,
        &LIFT,
        &ORDER,
        &mut work,
        &SHEET[3..],
        &mut answer,
    );
    // Parts 1, 1, 2 and 5.
    assert_eq!((result, answer), (Ok(()), [0]));
}

#[test]
fn a_tree_shows_its_sheet() {
    let tree = Tree::new(&[1, 1]).unwrap();
    assert_eq!(format!("{tree:?}"), "Tree { parents: [1, 1], .. }");
}

#[test]
fn a_tree_goes_to_other_threads() {
    fn takes<T: Send + Sync + Clone>(tree: T) -> T {
        tree.clone()
    }
    let tree = takes(Tree::new(&SHEET).unwrap());
    let carrier = std::thread::spawn(move || tree.carrier(3, 4));
    assert_eq!(carrier.join().unwrap(), Ok(1));
}
