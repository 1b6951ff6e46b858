//! Sound sheets with something wrong about the other buffers, and then many things wrong at once.

use std::collections::BTreeSet;

use crate::model::{Call, Lent, BUFFERS, TABLES};
use crate::support::{
    alter_cell, alter_length, change, edges, empty_question, name_no_part, sound_cases, Case,
    Damage, Length, Rng, Shape,
};

#[test]
fn wrong_lengths_are_misfits() {
    for mut case in sound_cases(60, 1, 70) {
        for call in Call::ALL {
            for buffer in BUFFERS.filter(|&buffer| call.takes(buffer)) {
                for length in Length::ALL {
                    let mut lent = case.lent(call);
                    alter_length(&mut lent, buffer, length);
                    let result = case.agree(call, &lent);
                    if (call, buffer) != (Call::List, 5) {
                        assert_eq!(result.unwrap_err().0, 3, "{length:?}, {}", case.note);
                    }
                }
            }
        }
    }
}

#[test]
fn the_lowest_of_several_misfits_is_named() {
    for mut case in sound_cases(60, 1, 20) {
        for call in Call::ALL {
            let mut lent = case.lent(call);
            for buffer in BUFFERS.rev().filter(|&buffer| call.takes(buffer)) {
                if (call, buffer) != (Call::List, 5) {
                    alter_length(&mut lent, buffer, Length::OneLong);
                    let result = case.agree(call, &lent);
                    assert_eq!(result, Err((3, buffer as u64)), "{}", case.note);
                }
            }
        }
    }
}

/// Each call that reads tables refuses them at the changed cell, whatever its question.
fn assert_stale(case: &mut Case, buffer: usize, cell: usize) {
    for call in Call::ALL.into_iter().filter(|call| call.reads_tables()) {
        let mut lent = case.lent(call);
        let tables = TABLES.into_iter().take_while(|&table| table != buffer);
        let before: usize = tables.map(|table| lent.table(table).len()).sum();
        change(&mut lent, buffer, cell, &mut case.rng);
        name_no_part(&mut lent, &mut case.rng);
        let result = case.agree(call, &lent);
        assert_eq!(result, Err((8, (before + cell) as u64)), "{}", case.note);
    }
}

#[test]
fn every_cell_of_a_short_sheet_s_tables_counts() {
    for mut case in sound_cases(24, 1, 8) {
        let mut lent = case.lent(Call::Compare);
        for buffer in TABLES {
            for cell in 0..lent.table(buffer).len() {
                assert_stale(&mut case, buffer, cell);
            }
        }
    }
}

#[test]
fn the_edges_of_every_section_count() {
    for mut case in sound_cases(12, 9, 200) {
        for (buffer, cell) in edges(case.n()) {
            assert_stale(&mut case, buffer, cell);
        }
    }
}

#[test]
fn questions_of_nothing_or_of_parts_that_are_not_there_are_refused() {
    for mut case in sound_cases(200, 1, 60) {
        for call in Call::ALL.into_iter().filter(|call| call.answers()) {
            let mut lent = case.lent(call);
            for _ in 0..3 {
                name_no_part(&mut lent, &mut case.rng);
                let result = case.agree(call, &lent);
                assert_eq!(result.unwrap_err().0, 10, "{}", case.note);
            }
            empty_question(&mut lent, call);
            let empty = if call == Call::Trail { (3, 5) } else { (9, 0) };
            assert_eq!(case.agree(call, &lent), Err(empty), "{}", case.note);
        }
    }
}

#[test]
fn subtrees_of_parts_that_are_not_there_are_refused() {
    for mut case in sound_cases(200, 1, 60) {
        let mut lent = case.lent(Call::Subtree);
        for _ in 0..6 {
            name_no_part(&mut lent, &mut case.rng);
            let result = case.agree(Call::Subtree, &lent);
            assert_eq!(result, Err((10, 0)), "part {}, {}", lent.part, case.note);
        }
    }
}

/// The parts of the order table in another order are the sheet's own no more, from the first of two that changed places on.
#[test]
fn an_order_table_that_is_shuffled_is_stale() {
    for mut case in sound_cases(200, 2, 60) {
        let n = case.n();
        let (first, other) = (case.rng.below(n - 1), case.rng.below(n - 1));
        let second = first + 1 + other % (n - 1 - first);
        for call in Call::ALL.into_iter().filter(|call| call.reads_tables()) {
            let mut lent = case.lent(call);
            lent.order.swap(first, second);
            let before = lent.label.len() + lent.tour.len() + lent.lift.len();
            let stale = Err((8, (before + first) as u64));
            assert_eq!(case.agree(call, &lent), stale, "{}", case.note);
        }
    }
}

/// Makes up to three things wrong.
fn alter(case: &mut Case, call: Call, lent: &mut Lent) {
    let rng = &mut case.rng;
    for _ in 0..rng.below(4) {
        match rng.below(8) {
            0 => alter_length(lent, 1 + rng.below(10), rng.pick(&Length::ALL)),
            1 => empty_question(lent, call),
            2..=4 => name_no_part(lent, rng),
            _ => alter_cell(lent, rng),
        }
    }
}

/// Whether many tries of the call must meet this number, of which 0 is an accepted call.
fn can_give(call: Call, number: u32) -> bool {
    match number {
        8 => call.reads_tables(),
        9 => call.answers() && call != Call::Trail,
        10 => call.answers() || call == Call::Subtree,
        _ => true,
    }
}

#[test]
fn many_things_wrong_at_once_are_refused_in_the_card_s_order() {
    let mut met = BTreeSet::new();
    for seed in 0..1500 {
        let mut rng = Rng::new(!seed);
        let shape = rng.pick(&Shape::ALL);
        let n = rng.pick(&[2, 3, 4, 7, 8, 9, 16, 33, 100]);
        let mut case = if rng.once_in(3) {
            Case::damaged(seed, shape, n, rng.pick(&Damage::ALL))
        } else {
            Case::sound(seed, shape, n)
        };
        for call in Call::ALL {
            let mut lent = case.lent(call);
            alter(&mut case, call, &mut lent);
            let result = case.agree(call, &lent);
            met.insert((call, result.map_or_else(|(number, _)| number, |_| 0)));
        }
    }
    for call in Call::ALL {
        for number in [0, 3, 4, 5, 6, 7, 8, 9, 10] {
            let expected = can_give(call, number);
            assert_eq!(
                met.contains(&(call, number)),
                expected,
                "{call:?}, {number}"
            );
        }
    }
}
