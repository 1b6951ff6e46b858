//! `Tree` compared with the plain model.

use std::thread;

use lca::{Answer, Refusal, Route, Trail, Tree};

use crate::model::{
    common_carrier, pair, subtree, totals, trail, Call, Refused, Tables, MOST_PARTS, TABLES,
};
use crate::support::{alter_cell, alter_length, sound_cases, Case, Damage, Length, Rng, Shape};

const ROUTES: [Route; 3] = [Route::Labels, Route::Tour, Route::Lifts];

fn refused<T: std::fmt::Debug>(result: Result<T, Refusal>) -> Refused {
    let refusal = result.unwrap_err();
    (refusal.number, refusal.place)
}

fn some_pairs(rng: &mut Rng, n: usize) -> Vec<(u16, u16)> {
    let mut part = || rng.below(n) as u16;
    (0..20).map(|_| (part(), part())).collect()
}

/// The plain model's answers.
fn answers(parents: &[u16], pairs: &[(u16, u16)]) -> Vec<Answer> {
    let answer = |&(x, y): &(u16, u16)| {
        let [carrier, x_branch, y_branch] = pair(parents, x, y);
        Answer {
            carrier,
            x_branch,
            y_branch,
        }
    };
    pairs.iter().map(answer).collect()
}

#[test]
fn a_tree_has_the_sheet_s_own_tables() {
    for case in sound_cases(120, 1, 200) {
        let tree = Tree::new(&case.parents).unwrap();
        let own = case.plain.tree.as_ref().ok().unwrap();
        assert_eq!(tree.parents(), case.parents, "{}", case.note);
        assert_eq!(tree.label(), own.label, "{}", case.note);
        assert_eq!(tree.tour(), own.tour, "{}", case.note);
        assert_eq!(tree.lift(), own.lift, "{}", case.note);
        assert_eq!(tree.order(), own.order, "{}", case.note);
        assert_eq!((tree.len(), tree.is_empty()), (case.n(), false));
        assert_eq!(Tree::check(&case.parents), Ok(()), "{}", case.note);
        assert_eq!(Tree::try_from(&case.parents[..]), Ok(tree.clone()));
        let (label, tour, lift) = (&own.label, &own.tour, &own.lift);
        let kept = Tree::from_tables(&case.parents, label, tour, lift, &own.order);
        assert_eq!(kept, Ok(tree), "{}", case.note);
    }
}

#[test]
fn a_tree_s_answers_are_the_plain_model_s() {
    for mut case in sound_cases(200, 1, 120) {
        let tree = Tree::new(&case.parents).unwrap();
        let pairs = some_pairs(&mut case.rng, case.parents.len());
        let parents = &case.parents;
        let answers = answers(parents, &pairs);
        for route in ROUTES {
            let found = tree.pairs(route, &pairs);
            assert_eq!(found.as_ref(), Ok(&answers), "{}", case.note);
        }
        assert_eq!(tree.pairs_by_labels(&pairs).as_ref(), Ok(&answers));
        assert_eq!(tree.pairs_by_tour(&pairs).as_ref(), Ok(&answers));
        assert_eq!(tree.pairs_by_lifts(&pairs).as_ref(), Ok(&answers));
        for (&(x, y), &answer) in pairs.iter().zip(&answers) {
            let carrier = answer.carrier;
            let rows = trail(parents, x, y);
            assert_eq!(tree.pair(x, y), Ok(answer), "{}", case.note);
            assert_eq!(tree.carrier(x, y), Ok(carrier), "{}", case.note);
            assert_eq!(tree.trail(x, y).unwrap().lifts(), rows.len());
            assert_eq!(
                tree.trail(x, y),
                Ok(Trail { carrier, rows }),
                "{}",
                case.note
            );
        }
        let parts: Vec<u16> = pairs.iter().map(|&(x, _)| x).collect();
        let parts = &parts[..1 + case.rng.below(parts.len())];
        assert_eq!(
            tree.list(parts),
            Ok(common_carrier(parents, parts)),
            "{}",
            case.note
        );
    }
}

/// A branch is bolted into the carrier, and the part is in its subtree; where the part is the carrier, so is the branch.
#[test]
fn a_tree_s_branches_carry_their_parts() {
    for mut case in sound_cases(200, 1, 60) {
        let tree = Tree::new(&case.parents).unwrap();
        let pairs = some_pairs(&mut case.rng, case.parents.len());
        for route in ROUTES {
            let answers = tree.pairs(route, &pairs).unwrap();
            for (&(x, y), answer) in pairs.iter().zip(answers) {
                for (part, branch) in [(x, answer.x_branch), (y, answer.y_branch)] {
                    let below = part != answer.carrier;
                    assert_eq!(branch != answer.carrier, below, "{}", case.note);
                    if below {
                        let entry = tree.parents()[branch as usize];
                        assert_eq!(entry, answer.carrier, "{}", case.note);
                    }
                    let carried = tree.subtree(branch).unwrap();
                    assert!(carried.contains(&part), "{}", case.note);
                }
            }
        }
    }
}

/// A subtree has the plain model's parts, and lies in the tree's order table: nothing is copied.
#[test]
fn a_tree_s_subtrees_are_stretches_of_its_order_table() {
    for case in sound_cases(200, 1, 60) {
        let tree = Tree::new(&case.parents).unwrap();
        let order = &case.plain.tree.as_ref().ok().unwrap().order;
        for part in 0..case.n() as u16 {
            let found = tree.subtree(part).unwrap();
            assert_eq!(found, subtree(&case.parents, order, part), "{}", case.note);
            let (table, cells) = (tree.order().as_ptr_range(), found.as_ptr_range());
            assert!(table.start <= cells.start && cells.end <= table.end);
        }
    }
}

/// The totals are the plain model's, the sums over the tree's own subtrees, and with equal counts so many times SIZE.
#[test]
fn a_tree_s_totals_are_sums_over_its_subtrees() {
    for mut case in sound_cases(200, 1, 60) {
        let n = case.n();
        let tree = Tree::new(&case.parents).unwrap();
        let counts = case.rng.counts(n);
        let found = tree.totals(&counts).unwrap();
        assert_eq!(found, totals(&case.parents, &counts), "{}", case.note);
        let most = tree.totals(&vec![u32::MAX; n]).unwrap();
        for part in 0..n {
            let carried = tree.subtree(part as u16).unwrap().iter();
            let sum: u64 = carried.map(|&v| u64::from(counts[v as usize])).sum();
            assert_eq!(found[part], sum, "part {part}, {}", case.note);
            let size = u64::from(tree.label()[n + part]);
            assert_eq!(most[part], size * u64::from(u32::MAX), "{}", case.note);
        }
    }
}

#[test]
fn a_tree_refuses_questions() {
    for mut case in sound_cases(60, 1, 60) {
        let n = case.n();
        let tree = Tree::new(&case.parents).unwrap();
        let mut pairs = some_pairs(&mut case.rng, n);
        let at = case.rng.below(pairs.len());
        pairs[at].1 = n as u16;
        for route in ROUTES {
            let place = 2 * at as u64 + 1;
            assert_eq!(
                refused(tree.pairs(route, &pairs)),
                (10, place),
                "{}",
                case.note
            );
            assert_eq!(refused(tree.pairs(route, &[])), (9, 0), "{}", case.note);
        }
        let parts: Vec<u16> = pairs.iter().map(|&(_, y)| y).collect();
        assert_eq!(refused(tree.list(&parts)), (10, at as u64), "{}", case.note);
        assert_eq!(refused(tree.list(&[])), (9, 0), "{}", case.note);
        assert_eq!(refused(tree.pair(0, n as u16)), (10, 1), "{}", case.note);
        assert_eq!(refused(tree.carrier(n as u16, 0)), (10, 0), "{}", case.note);
        assert_eq!(refused(tree.trail(0, 65_535)), (10, 1), "{}", case.note);
        assert_eq!(refused(tree.subtree(n as u16)), (10, 0), "{}", case.note);
        assert_eq!(refused(tree.subtree(65_535)), (10, 0), "{}", case.note);
        for cells in [0, n - 1, n + 1, 4 * n] {
            assert_eq!(refused(tree.totals(&vec![7; cells])), (3, 9));
        }
    }
}

#[test]
fn no_tree_is_made_of_a_damaged_sheet() {
    for seed in 0..300 {
        let mut rng = Rng::new(!seed);
        let n = 2 + rng.below(40);
        let case = Case::damaged(seed, rng.pick(&Shape::ALL), n, rng.pick(&Damage::ALL));
        let [label, tour, lift, order] = Tables::lengths(n).map(|cells| vec![0; cells]);
        let Err(why) = case.plain.tree else {
            assert!(Tree::new(&case.parents).is_ok(), "{}", case.note);
            continue;
        };
        assert_eq!(refused(Tree::new(&case.parents)), why, "{}", case.note);
        assert_eq!(refused(Tree::check(&case.parents)), why, "{}", case.note);
        assert_eq!(
            refused(Tree::try_from(&case.parents[..])),
            why,
            "{}",
            case.note
        );
        let kept = Tree::from_tables(&case.parents, &label, &tour, &lift, &order);
        assert_eq!(refused(kept), why, "{}", case.note);
    }
}

#[test]
fn no_tree_is_made_of_tables_that_are_not_the_sheet_s() {
    for mut case in sound_cases(300, 1, 60) {
        let mut lent = case.lent(Call::Compare);
        if case.rng.once_in(4) {
            let length = case.rng.pick(&Length::ALL);
            alter_length(&mut lent, case.rng.pick(&TABLES), length);
        } else {
            alter_cell(&mut lent, &mut case.rng);
        }
        let (label, tour, lift) = (&lent.label, &lent.tour, &lent.lift);
        let kept = Tree::from_tables(&lent.parents, label, tour, lift, &lent.order);
        let why = case.plain.call(Call::Compare, &mut lent).unwrap_err();
        assert_eq!(refused(kept), why, "{}", case.note);
    }
}

#[test]
fn no_tree_is_made_of_a_bare_or_oversize_sheet() {
    for (n, why) in [(0, (1, 0)), (MOST_PARTS + 1, (2, 0)), (1_000_000, (2, 0))] {
        let parents = vec![0; n];
        assert_eq!(refused(Tree::new(&parents)), why);
        assert_eq!(refused(Tree::check(&parents)), why);
        let kept = Tree::from_tables(&parents, &[], &[], &[], &[]);
        assert_eq!(refused(kept), why);
        let kept = Tree::from_tables(&parents, &parents, &[1], &[], &[2]);
        assert_eq!(refused(kept), why);
    }
}

#[test]
fn threads_share_a_tree() {
    let mut case = Case::sound(7, Shape::Random, 500);
    let tree = Tree::new(&case.parents).unwrap();
    let pairs = some_pairs(&mut case.rng, 500);
    let answers = answers(&case.parents, &pairs);
    thread::scope(|scope| {
        for route in ROUTES {
            let (tree, pairs, answers) = (&tree, &pairs, &answers);
            scope.spawn(move || {
                for _ in 0..20 {
                    assert_eq!(tree.pairs(route, pairs).as_ref(), Ok(answers));
                }
            });
        }
    });
}
