//! The plain model itself, held to documents 01 and 02: the known sheet, and rules that they state beside the definitions.

use super::*;
use crate::support::{sound_cases, Case};

const KNOWN: [u16; 7] = [0, 0, 0, 1, 1, 2, 5];

fn own(case: &Case) -> &Tables {
    case.plain.tree.as_ref().ok().unwrap()
}

#[test]
fn the_known_sheet() {
    let own = Tables::of(&KNOWN);
    assert_eq!(own.label[..7], [1, 2, 5, 3, 4, 6, 7]);
    assert_eq!(own.label[7..14], [7, 3, 3, 1, 1, 2, 1]);
    assert_eq!(own.label[21..28], [4, 4, 6, 3, 4, 6, 7]);
    assert_eq!(own.label[28..35], [4, 4, 6, 5, 4, 6, 7]);
    assert_eq!(own.label[35..], [NONE, NONE, 3, 0, NONE, 2, 6]);
    assert_eq!(own.tour[..13], [0, 1, 3, 1, 4, 1, 0, 2, 5, 6, 5, 2, 0]);
    assert_eq!(own.order, [0, 1, 3, 4, 2, 5, 6]);
    assert_eq!(Tables::lengths(7), [42, 72, 21, 7]);
    assert_eq!(own.label.len() + own.tour.len() + own.lift.len(), 135);
    assert_eq!(trail(&KNOWN, 6, 6), []);
    assert_eq!(trail(&KNOWN, 0, 6), [(0, 2), (0, 0)]);
    assert_eq!(trail(&KNOWN, 3, 6), [(3, 5), (1, 2), (0, 0)]);
    assert_eq!(carrier(&KNOWN, 5, 6), 5);
    assert_eq!(common_carrier(&KNOWN, &[6, 5, 2]), 2);
    assert_eq!(pair(&KNOWN, 3, 4), [1, 3, 4]);
    assert_eq!(pair(&KNOWN, 3, 6), [0, 1, 2]);
    assert_eq!(pair(&KNOWN, 0, 6), [0, 0, 2]);
    assert_eq!(pair(&KNOWN, 6, 2), [2, 5, 2]);
    assert_eq!(pair(&KNOWN, 6, 6), [6, 6, 6]);
    assert_eq!(subtree(&KNOWN, &own.order, 1), [1, 3, 4]);
    assert_eq!(subtree(&KNOWN, &own.order, 2), [2, 5, 6]);
    assert_eq!(subtree(&KNOWN, &own.order, 6), [6]);
    assert_eq!(subtree(&KNOWN, &own.order, 0), own.order);
    let counts = [1, 2, 4, 8, 16, 32, 64];
    assert_eq!(totals(&KNOWN, &counts), [127, 26, 100, 8, 16, 96, 64]);
}

#[test]
fn the_known_refusals() {
    assert_eq!(not_one_tree(&[1, 0]), Some((5, 0)));
    assert_eq!(not_one_tree(&[0, 1]), Some((6, 1)));
    assert_eq!(not_one_tree(&[0, 2, 1]), Some((7, 1)));
    assert_eq!(not_one_tree(&[5, 1, 2]), Some((4, 0)));
    assert_eq!(not_one_tree(&[0]), None);
    assert_eq!(not_one_tree(&[1, 1]), None);
}

/// A part stands before all else that it carries; of two with the same entry, the lower with all it carries before the other.
#[test]
fn preorder_follows_its_rule() {
    for case in sound_cases(60, 1, 25) {
        let place = &own(&case).label[..case.n()];
        let order = &own(&case).order;
        for (v, &place) in place.iter().enumerate() {
            assert_eq!(order[place as usize - 1] as usize, v, "{}", case.note);
        }
        let paths: Vec<_> = (0..case.n() as u16)
            .map(|v| carriers(&case.parents, v))
            .collect();
        for (u, path_u) in paths.iter().enumerate() {
            for (v, path_v) in paths.iter().enumerate().filter(|&(v, _)| v != u) {
                let mut down = path_u.iter().rev().zip(path_v.iter().rev());
                let before = match down.find(|(x, y)| x != y) {
                    Some((x, y)) => x < y,
                    None => path_u.len() < path_v.len(),
                };
                assert_eq!(place[u] < place[v], before, "{}", case.note);
            }
        }
    }
}

/// A subtree is a stretch of the order table that begins with its part, "holding every part it carries and no other".
#[test]
fn a_subtree_is_a_stretch_of_the_order_table() {
    for case in sound_cases(60, 1, 30) {
        let order = &own(&case).order;
        for (start, &part) in order.iter().enumerate() {
            let found = subtree(&case.parents, order, part);
            assert_eq!(order[start..][..found.len()], found, "{}", case.note);
            for v in 0..case.n() as u16 {
                let carried = carriers(&case.parents, v).contains(&part);
                assert_eq!(found.contains(&v), carried, "{}", case.note);
            }
        }
    }
}

/// "the sum of counts over all parts it carries"; "The root's total is the sum of the list."
#[test]
fn a_total_is_the_sum_over_the_parts_that_are_carried() {
    for mut case in sound_cases(60, 1, 30) {
        let counts = case.rng.counts(case.parents.len());
        let sum = |parts: &[u16]| -> u64 { parts.iter().map(|&v| counts[v as usize] as u64).sum() };
        let order = &own(&case).order;
        for (part, &total) in (0..).zip(&totals(&case.parents, &counts)) {
            let carried = subtree(&case.parents, order, part);
            assert_eq!(total, sum(&carried), "{}", case.note);
            if case.parents[part as usize] == part {
                assert_eq!(total, sum(order), "{}", case.note);
            }
        }
    }
}

#[test]
fn inlabel_follows_its_formula() {
    for case in sound_cases(100, 1, 100) {
        let n = case.n();
        let label = &own(&case).label;
        for v in 0..n {
            let (first, size, inlabel) = (label[v], label[n + v], label[3 * n + v]);
            let last = first + size - 1;
            let i = log(((first - 1) ^ last) as usize);
            assert_eq!(inlabel, (last >> i) << i, "{}", case.note);
        }
    }
}

/// All other common carriers carry the carrier.
#[test]
fn the_carrier_is_the_one_below_all_others() {
    for case in sound_cases(60, 1, 20) {
        let n = case.n() as u16;
        for (x, y) in (0..n).flat_map(|x| (0..n).map(move |y| (x, y))) {
            let above = |v| carriers(&case.parents, v);
            let found = carrier(&case.parents, x, y);
            assert!(above(x).contains(&found) && above(y).contains(&found));
            for common in above(x).into_iter().filter(|c| above(y).contains(c)) {
                assert!(above(found).contains(&common), "{}", case.note);
            }
        }
    }
}

/// "the part directly below the carrier on the way to x"; "Where x or y is the carrier itself, that branch is the carrier."
#[test]
fn a_branch_is_bolted_into_its_carrier_and_carries_the_part() {
    for case in sound_cases(60, 1, 30) {
        for part in 0..case.n() as u16 {
            let climb = carriers(&case.parents, part);
            for &carrier in &climb {
                let found = branch(&case.parents, carrier, part);
                if part == carrier {
                    assert_eq!(found, carrier, "{}", case.note);
                } else {
                    let entry = case.parents[found as usize];
                    assert!(found != carrier && entry == carrier, "{}", case.note);
                    assert!(climb.contains(&found), "{}", case.note);
                }
            }
        }
    }
}

/// The trail ends at the carrier, after ones(g) lifts and, if d > 0, ones(d−1)+1 more.
#[test]
fn a_trail_has_as_many_lifts_as_the_formula_says() {
    for mut case in sound_cases(200, 1, 100) {
        let level = |v| carriers(&case.parents, v).len() - 1;
        let (x, y) = (
            case.rng.below(case.parents.len()) as u16,
            case.rng.below(case.parents.len()) as u16,
        );
        let found = carrier(&case.parents, x, y);
        let g = level(x).abs_diff(level(y));
        let d = level(x).min(level(y)) - level(found);
        let further = if d > 0 { (d - 1).count_ones() + 1 } else { 0 };
        let rows = trail(&case.parents, x, y);
        assert_eq!(rows.len() as u32, g.count_ones() + further, "{}", case.note);
        let end = rows.last().copied().unwrap_or((x, y));
        assert_eq!(end, (found, found), "{}", case.note);
    }
}
