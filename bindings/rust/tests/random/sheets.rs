//! Every call on sheets of all shapes, with buffers of exact lengths.

use crate::model::{Call, BUFFERS, MOST_PARTS};
use crate::support::{alter_cell, name_no_part, sound_cases, Case, Damage, Rng, Shape};

#[test]
fn sound_sheets_are_accepted_and_answered() {
    for mut case in sound_cases(600, 1, 40).chain(sound_cases(30, 41, 900)) {
        for call in Call::ALL {
            let lent = case.lent(call);
            assert!(case.agree(call, &lent).is_ok(), "{call:?}, {}", case.note);
        }
    }
}

#[test]
fn damaged_sheets_are_refused() {
    let mut loops = 0;
    for seed in 0..400 {
        let mut rng = Rng::new(!seed);
        let most = rng.pick(&[10, 40, 300]);
        let n = 2 + rng.below(most);
        let shape = rng.pick(&Shape::ALL);
        for damage in Damage::ALL {
            let mut case = Case::damaged(seed, shape, n, damage);
            for call in Call::ALL {
                let lent = case.lent(call);
                let number = case.agree(call, &lent).map_or_else(|why| why.0, |_| 0);
                let expected: &[u32] = match damage {
                    Damage::OffSheet => &[4],
                    Damage::Rootless => &[5],
                    Damage::SecondRoot => &[6],
                    Damage::Loop => &[7, 0],
                    Damage::Anything => &[0, 5, 6, 7],
                };
                assert!(expected.contains(&number), "{call:?}, {}", case.note);
                loops += u32::from(number == 7);
            }
        }
    }
    assert!(loops > 1_000);
}

/// All words of so many numbers below `limit`.
fn words(limit: usize, numbers: usize) -> impl Iterator<Item = Vec<u16>> {
    (0..limit.pow(numbers as u32)).map(move |code| {
        let digit = |i| (code / limit.pow(i as u32) % limit) as u16;
        (0..numbers).map(digit).collect()
    })
}

#[test]
fn every_sheet_of_up_to_four_parts_and_every_short_question() {
    for n in 1..=4 {
        for parents in words(n + 1, n) {
            let note = format!("sheet {parents:?}");
            let mut case = Case::new(parents, note, Rng::new(n as u64));
            for call in Call::ALL {
                let mut lent = case.lent(call);
                let sound = case.agree(call, &lent).is_ok();
                let numbers = if call == Call::List { 3 } else { 2 };
                if sound && call.answers() {
                    lent.answer.truncate(call.answer_cells(numbers));
                    for question in words(n + 1, numbers) {
                        let answerable = question.iter().all(|&part| part < n as u16);
                        lent.question = question;
                        assert_eq!(case.agree(call, &lent).is_ok(), answerable);
                    }
                }
                if sound && call == Call::Subtree {
                    for part in 0..n + 2 {
                        lent.part = part;
                        assert_eq!(case.agree(call, &lent).is_ok(), part < n);
                    }
                }
            }
        }
    }
}

#[test]
fn bare_and_oversize_sheets_are_refused_whatever_else_is_lent() {
    for n in [0, MOST_PARTS + 1, 20_000, 65_536, 70_000] {
        let parents = (0..n).map(|v| v.saturating_sub(1) as u16).collect();
        let mut case = Case::new(parents, format!("chain of {n}"), Rng::new(1));
        let refused = Err((if n == 0 { 1 } else { 2 }, 0));
        for call in Call::ALL {
            let mut lent = case.lent(call);
            assert_eq!(case.agree(call, &lent), refused);
            for buffer in BUFFERS {
                lent.buffer(buffer).set_length(0);
            }
            assert_eq!(case.agree(call, &lent), refused);
        }
    }
}

#[test]
fn the_longest_sheets_are_answered() {
    for (seed, shape) in (1..).zip(Shape::ALL) {
        let n = MOST_PARTS - usize::from(seed == 5);
        let mut case = Case::sound(seed, shape, n);
        for call in Call::ALL {
            let mut lent = case.lent(call);
            assert!(case.agree(call, &lent).is_ok(), "{call:?}, {}", case.note);
            name_no_part(&mut lent, &mut case.rng);
            alter_cell(&mut lent, &mut case.rng);
            assert_eq!(case.agree(call, &lent).is_ok(), !call.reads_tables());
        }
    }
}

#[test]
fn the_longest_sheets_are_refused_when_damaged() {
    for (damage, shape) in Damage::ALL.into_iter().zip(Shape::ALL.into_iter().rev()) {
        let mut case = Case::damaged(9, shape, MOST_PARTS, damage);
        for call in Call::ALL {
            let lent = case.lent(call);
            assert!(case.agree(call, &lent).is_err(), "{call:?}, {}", case.note);
        }
    }
}

#[test]
fn ten_thousand_pairs_in_one_call() {
    let mut case = Case::sound(3, Shape::Random, 3_000);
    for call in Call::ALL.into_iter().filter(|call| call.is_of_pairs()) {
        let mut lent = case.lent(call);
        lent.question = (0..20_000).map(|_| case.rng.below(3_000) as u16).collect();
        lent.answer = case.rng.cells(30_000);
        assert_eq!(case.agree(call, &lent), Ok(0), "{}", case.note);
        lent.question[19_999] = 3_000;
        assert_eq!(case.agree(call, &lent), Err((10, 19_999)), "{}", case.note);
    }
}
