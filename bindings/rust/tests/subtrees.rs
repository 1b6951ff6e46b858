//! Subtrees (document 02, 2026-01), worked out by hand on document 01's known sheets, and where they stand: in the order table itself.

use lca::{calls, Refusal, Tree};

/// Its parts in preorder are 0 1 3 4 2 5 6.
const SHEET: [u16; 7] = [0, 0, 0, 1, 1, 2, 5];

fn refusal(number: u32, place: u64) -> Refusal {
    Refusal { number, place }
}

#[test]
fn the_known_sheet_s_parts_have_their_subtrees() {
    let tree = Tree::new(&SHEET).unwrap();
    assert_eq!(tree.subtree(0).unwrap(), [0, 1, 3, 4, 2, 5, 6]);
    assert_eq!(tree.subtree(1).unwrap(), [1, 3, 4]);
    assert_eq!(tree.subtree(2).unwrap(), [2, 5, 6]);
    assert_eq!(tree.subtree(3).unwrap(), [3]);
    assert_eq!(tree.subtree(4).unwrap(), [4]);
    assert_eq!(tree.subtree(5).unwrap(), [5, 6]);
    assert_eq!(tree.subtree(6).unwrap(), [6]);
}

#[test]
fn sheets_of_one_and_two_parts() {
    let one = Tree::new(&[0]).unwrap();
    assert_eq!(one.subtree(0).unwrap(), [0]);
    assert_eq!(one.subtree(1), Err(refusal(10, 0)));
    // The root is the last part.
    let two = Tree::new(&[1, 1]).unwrap();
    assert_eq!(two.subtree(1).unwrap(), [1, 0]);
    assert_eq!(two.subtree(0).unwrap(), [0]);
}

#[test]
fn the_longest_chain_and_star() {
    let chain: Vec<u16> = (0..16_384u16).map(|v| v.saturating_sub(1)).collect();
    let tree = Tree::new(&chain).unwrap();
    let below: Vec<u16> = (10_000..16_384).collect();
    assert_eq!(tree.subtree(10_000).unwrap(), below);
    assert_eq!(tree.subtree(16_383).unwrap(), [16_383]);
    assert_eq!(tree.subtree(16_384), Err(refusal(10, 0)));
    let star = Tree::new(&[0; 16_384]).unwrap();
    assert_eq!(star.subtree(0).unwrap().len(), 16_384);
    assert_eq!(star.subtree(9_999).unwrap(), [9_999]);
}

#[test]
fn parts_that_are_not_there_are_refused_at_0() {
    let tree = Tree::new(&SHEET).unwrap();
    for part in [7, 8, 16_384, 65_535] {
        assert_eq!(tree.subtree(part), Err(refusal(10, 0)));
    }
    for part in [7, 65_536, 65_538, 1 << 32, usize::MAX] {
        assert_eq!(lent(&tree, tree.order(), part), Err(refusal(10, 0)));
    }
}

/// Asks by the call itself, with the tree's other tables and this order table.
fn lent<'a>(tree: &Tree, order: &'a [u16], part: usize) -> Result<&'a [u16], Refusal> {
    let (label, tour, lift) = (tree.label(), tree.tour(), tree.lift());
    let mut work = [3; 28];
    let found = calls::subtree(tree.parents(), label, tour, lift, order, &mut work, part);
    let misfit = found.is_err_and(|refusal| refusal.number == Refusal::MISFIT);
    assert_eq!(work, [if misfit { 3 } else { 0 }; 28]);
    found
}

#[test]
fn an_order_table_that_is_not_the_sheet_s_is_refused() {
    let tree = Tree::new(&SHEET).unwrap();
    // As far as part 1's subtree goes, this table is right. Its sixth cell is cell 42 + 72 + 21 + 5 of all.
    assert_eq!(lent(&tree, &[0, 1, 3, 4, 2, 6, 5], 1), Err(refusal(8, 140)));
    assert_eq!(lent(&tree, &[0, 2, 5, 6, 1, 3, 4], 7), Err(refusal(8, 136)));
    assert_eq!(lent(&tree, &[0, 1, 3, 4, 2, 5], 1), Err(refusal(3, 8)));
    assert_eq!(
        lent(&tree, &[0, 1, 3, 4, 2, 5, 6, 7], 1),
        Err(refusal(3, 8))
    );
    assert_eq!(lent(&tree, &[], 9), Err(refusal(3, 8)));
}

/// The addresses are those of the tree's own table: nothing is copied.
#[test]
fn a_subtree_is_a_stretch_of_the_tree_s_order_table() {
    let tree = Tree::new(&SHEET).unwrap();
    let table = tree.order().as_ptr_range();
    for (part, first) in [(0, 0), (1, 1), (2, 4), (3, 2), (4, 3), (5, 5), (6, 6)] {
        let found = tree.subtree(part).unwrap();
        let cells = found.as_ptr_range();
        assert!(table.start <= cells.start && cells.end <= table.end);
        assert!(std::ptr::eq(found, &tree.order()[first..][..found.len()]));
    }
    assert!(std::ptr::eq(tree.subtree(0).unwrap(), tree.order()));
}

/// The same of a table that a caller lends. The subtree outlives all else that was lent.
#[test]
fn a_subtree_is_a_stretch_of_the_table_that_was_lent() {
    let order = [0, 1, 3, 4, 2, 5, 6];
    let found = {
        let tree = Tree::new(&SHEET).unwrap();
        lent(&tree, &order, 2).unwrap()
    };
    assert_eq!(found, [2, 5, 6]);
    assert!(std::ptr::eq(found, &order[4..]));
}
