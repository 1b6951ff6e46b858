//! By which branch (document 02, 2026-03), worked out by hand: every answer by every route, and the exact length of the answer.

use lca::{calls, Answer, Refusal, Route, Tree};

const SHEET: [u16; 7] = [0, 0, 0, 1, 1, 2, 5];

/// The known pairs of that sheet.
const PAIRS: [(u16, u16); 7] = [(3, 4), (3, 6), (6, 6), (0, 6), (5, 6), (4, 1), (6, 2)];

/// For each of them its carrier, the branch towards x, the branch towards y.
#[rustfmt::skip]
const CELLS: [u16; 21] = [
    1, 3, 4,
    0, 1, 2,
    6, 6, 6,
    0, 0, 2,
    5, 5, 6,
    1, 4, 1,
    2, 5, 2,
];

const ROUTES: [Route; 3] = [Route::Labels, Route::Tour, Route::Lifts];

type Asking = fn(
    &[u16],
    &[u16],
    &[u16],
    &[u16],
    &[u16],
    &mut [u16],
    &[u16],
    &mut [u16],
) -> Result<(), Refusal>;

const CALLS: [Asking; 3] = [
    calls::pairs_by_labels,
    calls::pairs_by_tour,
    calls::pairs_by_lifts,
];

fn refusal(number: u32, place: u64) -> Refusal {
    Refusal { number, place }
}

fn answer(carrier: u16, x_branch: u16, y_branch: u16) -> Answer {
    Answer {
        carrier,
        x_branch,
        y_branch,
    }
}

/// The answer to a pair, which is the same by every route.
fn found(tree: &Tree, x: u16, y: u16) -> Answer {
    let found = tree.pair(x, y).unwrap();
    for route in ROUTES {
        assert_eq!(tree.pairs(route, &[(x, y)]).unwrap(), [found]);
    }
    assert_eq!(tree.carrier(x, y), Ok(found.carrier));
    found
}

/// Asks by the call itself, of the known sheet: the result, and so many cells of the answer afterwards. A cell that was not written is 9.
fn ask(call: Asking, question: &[u16], cells: usize) -> (Result<(), Refusal>, Vec<u16>) {
    let tree = Tree::new(&SHEET).unwrap();
    let (label, tour, lift, order) = (tree.label(), tree.tour(), tree.lift(), tree.order());
    let (mut work, mut answer) = ([9; 28], vec![9; cells]);
    let result = call(
        &SHEET,
        label,
        tour,
        lift,
        order,
        &mut work,
        question,
        &mut answer,
    );
    let misfit = result.is_err_and(|why| why.number == Refusal::MISFIT);
    assert_eq!(work, [if misfit { 9 } else { 0 }; 28]);
    (result, answer)
}

fn question() -> Vec<u16> {
    PAIRS.iter().flat_map(|&(x, y)| [x, y]).collect()
}

#[test]
fn the_known_pairs_have_three_cells_each_by_every_route() {
    for call in CALLS {
        assert_eq!(ask(call, &question(), 21), (Ok(()), CELLS.to_vec()));
        assert_eq!(ask(call, &[3, 6], 3), (Ok(()), vec![0, 1, 2]));
    }
}

#[test]
fn a_tree_gives_the_known_pairs_their_carriers_and_branches() {
    let tree = Tree::new(&SHEET).unwrap();
    let answers = CELLS
        .chunks(3)
        .map(|pair| answer(pair[0], pair[1], pair[2]));
    let answers: Vec<Answer> = answers.collect();
    for route in ROUTES {
        assert_eq!(tree.pairs(route, &PAIRS).unwrap(), answers);
    }
    assert_eq!(tree.pairs_by_labels(&PAIRS).unwrap(), answers);
    assert_eq!(tree.pairs_by_tour(&PAIRS).unwrap(), answers);
    assert_eq!(tree.pairs_by_lifts(&PAIRS).unwrap(), answers);
    for ((x, y), answer) in PAIRS.into_iter().zip(answers) {
        assert_eq!(found(&tree, x, y), answer);
    }
}

/// The first branch is x's, and the second y's.
#[test]
fn a_pair_turned_round_has_its_branches_turned_round() {
    let tree = Tree::new(&SHEET).unwrap();
    assert_eq!(found(&tree, 4, 3), answer(1, 4, 3));
    assert_eq!(found(&tree, 6, 3), answer(0, 2, 1));
    assert_eq!(found(&tree, 6, 0), answer(0, 2, 0));
    assert_eq!(found(&tree, 6, 5), answer(5, 6, 5));
    assert_eq!(found(&tree, 1, 4), answer(1, 1, 4));
    assert_eq!(found(&tree, 2, 6), answer(2, 2, 5));
}

#[test]
fn sheets_of_one_and_two_parts() {
    let one = Tree::new(&[0]).unwrap();
    assert_eq!(found(&one, 0, 0), answer(0, 0, 0));
    // The root is the last part.
    let two = Tree::new(&[1, 1]).unwrap();
    assert_eq!(found(&two, 0, 0), answer(0, 0, 0));
    assert_eq!(found(&two, 0, 1), answer(1, 0, 1));
    assert_eq!(found(&two, 1, 0), answer(1, 1, 0));
    assert_eq!(found(&two, 1, 1), answer(1, 1, 1));
}

#[test]
fn the_longest_chains() {
    let chain: Vec<u16> = (0..16_384u16).map(|v| v.saturating_sub(1)).collect();
    let tree = Tree::new(&chain).unwrap();
    assert_eq!(found(&tree, 16_383, 0), answer(0, 1, 0));
    assert_eq!(found(&tree, 10_000, 16_383), answer(10_000, 10_000, 10_001));
    assert_eq!(found(&tree, 16_383, 16_382), answer(16_382, 16_383, 16_382));
    // Each part is bolted into the next, and the last is the root.
    let chain: Vec<u16> = (0..16_384u16).map(|v| (v + 1).min(16_383)).collect();
    let tree = Tree::new(&chain).unwrap();
    assert_eq!(found(&tree, 0, 16_383), answer(16_383, 16_382, 16_383));
    assert_eq!(found(&tree, 0, 1), answer(1, 0, 1));
    assert_eq!(found(&tree, 9_999, 0), answer(9_999, 9_999, 9_998));
}

#[test]
fn the_longest_star_and_the_longest_pair_of_arms() {
    let star = Tree::new(&[0; 16_384]).unwrap();
    assert_eq!(found(&star, 9_999, 5), answer(0, 9_999, 5));
    assert_eq!(found(&star, 0, 16_383), answer(0, 0, 16_383));
    // The odd numbers are one arm, the even ones the other.
    let arms: Vec<u16> = (0..16_384u16).map(|v| v.saturating_sub(2)).collect();
    let tree = Tree::new(&arms).unwrap();
    assert_eq!(found(&tree, 16_383, 16_382), answer(0, 1, 2));
    assert_eq!(found(&tree, 2, 16_383), answer(0, 2, 1));
    assert_eq!(found(&tree, 16_382, 4), answer(4, 6, 4));
}

/// Among them are one cell a pair, two cells a pair, and the cells of one pair more or less.
#[test]
fn an_answer_of_another_length_is_a_misfit_and_unchanged() {
    for call in CALLS {
        for cells in (0..=30).filter(|&cells| cells != 21) {
            let refused = (Err(refusal(3, 6)), vec![9; cells]);
            assert_eq!(ask(call, &question(), cells), refused);
        }
    }
}

#[test]
fn an_odd_question_comes_before_the_answer_s_length() {
    for call in CALLS {
        for cells in 0..=30 {
            let refused = (Err(refusal(3, 5)), vec![9; cells]);
            assert_eq!(ask(call, &question()[1..], cells), refused);
        }
    }
}

#[test]
fn a_question_that_cannot_be_answered_leaves_the_answer_unchanged() {
    for call in CALLS {
        let refused = (Err(refusal(10, 3)), vec![9; 9]);
        assert_eq!(ask(call, &[3, 4, 0, 7, 3, 6], 9), refused);
        assert_eq!(ask(call, &[], 0), (Err(refusal(9, 0)), vec![]));
        assert_eq!(ask(call, &[], 3), (Err(refusal(3, 6)), vec![9; 3]));
    }
    let tree = Tree::new(&SHEET).unwrap();
    assert_eq!(tree.pair(7, 3), Err(refusal(10, 0)));
    assert_eq!(tree.pair(3, 65_535), Err(refusal(10, 1)));
}

#[test]
fn the_answer_to_a_list_keeps_its_one_cell() {
    assert_eq!(ask(calls::list, &[3, 6], 1), (Ok(()), vec![0]));
    for cells in [0, 2, 3] {
        let refused = (Err(refusal(3, 6)), vec![9; cells]);
        assert_eq!(ask(calls::list, &[3, 6], cells), refused);
    }
}
