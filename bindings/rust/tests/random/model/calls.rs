//! What each call gives, and what it leaves in every buffer.

use super::answers::{carrier, common_carrier, pair, subtree, totals, trail};
use super::lent::Lent;
use super::sheet::{not_one_tree, Refused, MOST_PARTS};
use super::tables::{Tables, NONE};

#[derive(Clone, Copy, Debug, PartialEq, Eq, PartialOrd, Ord)]
pub enum Call {
    Check,
    Build,
    Compare,
    PairsByLabels,
    PairsByTour,
    PairsByLifts,
    List,
    Trail,
    Subtree,
    Totals,
}

impl Call {
    pub const ALL: [Call; 10] = [
        Call::Check,
        Call::Build,
        Call::Compare,
        Call::PairsByLabels,
        Call::PairsByTour,
        Call::PairsByLifts,
        Call::List,
        Call::Trail,
        Call::Subtree,
        Call::Totals,
    ];

    /// Whether the call is lent tables to read.
    pub fn reads_tables(self) -> bool {
        !matches!(self, Call::Check | Call::Build | Call::Totals)
    }

    /// Whether the call is lent a question and an answer.
    pub fn answers(self) -> bool {
        self.reads_tables() && self != Call::Compare && self != Call::Subtree
    }

    pub fn is_of_pairs(self) -> bool {
        self.answers() && self != Call::List && self != Call::Trail
    }

    /// The exact length of the answer to a question of so many cells: three for each pair, and one for a list or a trail.
    pub fn answer_cells(self, asked: usize) -> usize {
        if self.is_of_pairs() {
            3 * (asked / 2)
        } else {
            1
        }
    }

    /// Whether the call is lent the buffer of this number.
    pub fn takes(self, buffer: usize) -> bool {
        match buffer {
            1..=3 | 8 => self.reads_tables() || self == Call::Build,
            4 => true,
            5 | 6 => self.answers(),
            7 => self == Call::Trail,
            _ => self == Call::Totals,
        }
    }
}

/// A sheet's verdict and tables, worked out once for many calls.
pub struct Plain {
    pub tree: Result<Tables, Refused>,
}

impl Plain {
    pub fn new(parents: &[u16]) -> Plain {
        let n = parents.len();
        let refused = match n {
            0 => Some((1, 0)),
            _ if n > MOST_PARTS => Some((2, 0)),
            _ => not_one_tree(parents),
        };
        Plain {
            tree: refused.map_or_else(|| Ok(Tables::of(parents)), Err),
        }
    }

    /// The call on this sheet: its count of lifts or of a subtree's parts, or 0; or its refusal. `lent` becomes what the call leaves.
    pub fn call(&self, call: Call, lent: &mut Lent) -> Result<u64, Refused> {
        if let Err((1 | 2, 0)) = self.tree {
            return Err(self.tree.as_ref().err().copied().unwrap());
        }
        if let Some(buffer) = lent.misfit(call) {
            return Err((3, buffer as u64));
        }
        lent.work.fill(0);
        let own = self.tree.as_ref().map_err(|&refused| refused)?;
        if call == Call::Build {
            lent.label.clone_from(&own.label);
            lent.tour.clone_from(&own.tour);
            lent.lift.clone_from(&own.lift);
            lent.order.clone_from(&own.order);
        }
        if call.reads_tables() {
            stale(own, lent).map_or(Ok(()), Err)?;
        }
        if call.answers() {
            unanswerable(lent).map_or(Ok(()), Err)?;
            return Ok(answer(call, lent));
        }
        if call == Call::Subtree {
            return locate(own, lent);
        }
        if call == Call::Totals {
            lent.totals = totals(&lent.parents, &lent.counts);
        }
        Ok(0)
    }
}

/// Test 8.
fn stale(own: &Tables, lent: &Lent) -> Option<Refused> {
    let own = [&own.label, &own.tour, &own.lift, &own.order];
    let lent = [&lent.label, &lent.tour, &lent.lift, &lent.order];
    let (own, lent) = (own.into_iter().flatten(), lent.into_iter().flatten());
    let place = own.zip(lent).position(|(own, lent)| own != lent)?;
    Some((8, place as u64))
}

/// Tests 9 and 10. No sheet that passes the tests before fails test 11.
fn unanswerable(lent: &Lent) -> Option<Refused> {
    if lent.question.is_empty() {
        return Some((9, 0));
    }
    let n = lent.parents.len();
    let place = lent.question.iter().position(|&part| part as usize >= n)?;
    Some((10, place as u64))
}

/// Fills the answer, and of a trail its rows. Gives the count of lifts, or 0.
fn answer(call: Call, lent: &mut Lent) -> u64 {
    let parents = &lent.parents;
    match call {
        Call::List => lent.answer[0] = common_carrier(parents, &lent.question),
        Call::Trail => return answer_trail(lent),
        _ => {
            let cells = lent.answer.chunks_mut(3);
            for (asked, cells) in lent.question.chunks(2).zip(cells) {
                cells.copy_from_slice(&pair(parents, asked[0], asked[1]));
            }
        }
    }
    0
}

fn answer_trail(lent: &mut Lent) -> u64 {
    let (x, y) = (lent.question[0], lent.question[1]);
    lent.answer[0] = carrier(&lent.parents, x, y);
    let rows = trail(&lent.parents, x, y);
    lent.trail.fill(NONE);
    for (&(x, y), cells) in rows.iter().zip(lent.trail.chunks_mut(2)) {
        cells.copy_from_slice(&[x, y]);
    }
    rows.len() as u64
}

/// Test 10 of a part, at 0, and its subtree: it begins where the part stands in preorder.
fn locate(own: &Tables, lent: &mut Lent) -> Result<u64, Refused> {
    if lent.part >= lent.parents.len() {
        return Err((10, 0));
    }
    let part = lent.part as u16;
    let cells = subtree(&lent.parents, &own.order, part);
    let count = cells.len() as u64;
    let start = own.order.iter().position(|&v| v == part).unwrap();
    lent.found = Some((start, cells));
    Ok(count)
}
