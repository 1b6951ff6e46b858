//! Questions to both implementations: their answers against the climber's, and what is refused.

use super::{expect, same, Checked};
use crate::buffers::Buffers;
use crate::candidates::{Ask, Calls, Outcome, ROUTES};
use crate::climb;
use crate::sheets::{parts, Draw};

pub const BY_ROUTE: [fn(&Calls) -> Ask; 3] = [|c| c.pairs[0], |c| c.pairs[1], |c| c.pairs[2]];

/// What an answer's or trail's cells hold before a call.
const BEFORE: u16 = 7;

/// One question by one call, with an answer of so many cells.
pub fn ask(
    what: &str,
    own: &Buffers,
    question: &[u16],
    cells: usize,
    call: fn(&Calls) -> Ask,
) -> Checked<(Outcome, Vec<u16>)> {
    let state = (own.clone(), vec![BEFORE; cells]);
    let (outcome, (_, answer)) = same(what, &state, |calls, (b, answer)| {
        let [label, tour, lift, order] = [&b.label, &b.tour, &b.lift, &b.order];
        let (parents, work) = (&b.parents, &mut b.work);
        call(calls)(parents, label, tour, lift, order, work, question, answer)
    })?;
    Ok((outcome, answer))
}

/// Pairs by every route: all three cells of each are the climber's, which are given.
pub fn pairs(what: &str, own: &Buffers, question: &[u16]) -> Checked<Vec<u16>> {
    let climbed = climb::pairs(&own.parents, question);
    for (route, call) in BY_ROUTE.into_iter().enumerate() {
        let what = format!("{what}, pairs by {}", ROUTES[route]);
        let (outcome, answer) = ask(&what, own, question, climbed.len(), call)?;
        expect(&what, (outcome, &answer), (Ok(0), &climbed))?;
    }
    Ok(climbed)
}

/// Pairs by every route, a list and trails, against the climber.
pub fn answers(what: &str, own: &Buffers, question: &[u16]) -> Checked {
    let climbed = pairs(what, own, question)?;
    let (outcome, answer) = ask(&format!("{what}, list"), own, question, 1, |c| c.list)?;
    let carrier = climb::list(&own.parents, question);
    expect(
        &format!("{what}, list"),
        (outcome, answer.first().copied()),
        (Ok(0), carrier),
    )?;
    let carriers = climbed.chunks_exact(3).map(|cells| cells[0]);
    for (pair, carrier) in question.chunks_exact(2).zip(carriers).take(20) {
        trail(&format!("{what}, trail of {pair:?}"), own, pair, carrier)?;
    }
    Ok(())
}

fn trail(what: &str, own: &Buffers, pair: &[u16], carrier: u16) -> Checked {
    let state = (own.clone(), vec![BEFORE; 1], vec![BEFORE; lca::cells::TRAIL]);
    let (outcome, (_, answer, rows)) = same(what, &state, |calls, (b, answer, rows)| {
        let [label, tour, lift, order] = [&b.label, &b.tour, &b.lift, &b.order];
        let (parents, work) = (&b.parents, &mut b.work);
        (calls.trail)(parents, label, tour, lift, order, work, pair, answer, rows)
    })?;
    let lifts = rows
        .chunks_exact(2)
        .filter(|row| row[0] != lca::cells::NO_CELL)
        .count();
    expect(what, (outcome, answer), (Ok(lifts as u64), vec![carrier]))
}

/// A question that is refused, and leaves the answer as it was.
fn refuses(
    what: &str,
    own: &Buffers,
    question: &[u16],
    cells: usize,
    call: fn(&Calls) -> Ask,
    refusal: (u32, u64),
) -> Checked {
    let asked = ask(what, own, question, cells, call)?;
    expect(what, asked, (Err(refusal), vec![BEFORE; cells]))
}

/// Questions of none, of an odd count, with an answer that misfits and with a number that is no part.
pub fn refused(what: &str, own: &Buffers, draw: &mut Draw) -> Checked {
    let n = own.parents.len();
    let question = &parts(10, n, draw);
    let at = draw.below(10);
    let mut off = question.clone();
    off[at] = n as u16;
    for call in BY_ROUTE {
        refuses(what, own, &[], 0, call, (9, 0))?;
        for cells in [2, 6, 7, 8, 9] {
            refuses(what, own, &question[..5], cells, call, (3, 5))?;
        }
        // One cell a pair, as before branches were given; three a pair less one and more one; three for a pair less and more; none.
        for cells in [5, 14, 16, 12, 18, 0] {
            refuses(what, own, question, cells, call, (3, 6))?;
        }
        refuses(what, own, &[], 3, call, (3, 6))?;
        refuses(what, own, &off, 15, call, (10, at as u64))?;
    }
    let list: fn(&Calls) -> Ask = |c| c.list;
    refuses(what, own, &[], 1, list, (9, 0))?;
    refuses(what, own, question, 2, list, (3, 6))?;
    refuses(what, own, question, 3, list, (3, 6))?;
    refuses(what, own, &off, 1, list, (10, at as u64))
}
