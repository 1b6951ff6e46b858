//! Before anything is measured: both implementations give the same results and leave the same buffers, on accepted and refused input, and
//! the answers are the plain climber's.

use std::fmt::Debug;

use crate::buffers::Buffers;
use crate::candidates::{Calls, Outcome, PROVED, RUST};
use crate::climb;
use crate::sheets::{deep, parts, random, Draw};

mod questions;
mod totals;

use questions::{ask, BY_ROUTE};

type Checked<T = ()> = Result<T, String>;

/// One call of each implementation on copies of the same state; both results and both states must agree.
fn same<S: Clone + PartialEq, R: PartialEq + Debug>(
    what: &str,
    state: &S,
    call: impl Fn(&Calls, &mut S) -> R,
) -> Checked<(R, S)> {
    let [(proved, left), (rust, right)] = [&PROVED, &RUST].map(|calls| {
        let mut state = state.clone();
        (call(calls, &mut state), state)
    });
    if proved != rust {
        Err(format!("{what}: proved {proved:?}, Rust {rust:?}"))
    } else if left != right {
        Err(format!("{what}: the buffers differ afterwards"))
    } else {
        Ok((proved, left))
    }
}

fn expect<T: PartialEq + Debug>(what: &str, got: T, wanted: T) -> Checked {
    if got == wanted {
        Ok(())
    } else {
        Err(format!("{what}: both give {got:?} and not {wanted:?}"))
    }
}

/// Check, build and compare, with other numbers in work and tables before. Gives the tables of a sheet that is accepted.
fn tables(what: &str, parents: &[u16], draw: &mut Draw) -> Checked<Option<Buffers>> {
    let mut before = Buffers::new(parents.to_vec());
    for buffer in before.lent() {
        buffer.fill_with(|| draw.below(65_536) as u16);
    }
    let (checked, _) = same(&format!("{what}, check"), &before, |calls, b| {
        (calls.check)(&b.parents, &mut b.work)
    })?;
    let (built, own) = same(&format!("{what}, build"), &before, |calls, b| {
        let (label, tour, lift) = (&mut b.label, &mut b.tour, &mut b.lift);
        (calls.build)(&b.parents, label, tour, lift, &mut b.order, &mut b.work)
    })?;
    expect(&format!("{what}, build"), built, checked)?;
    let compared = compare(what, &before)?;
    if built.is_err() {
        expect(&format!("{what}, compare"), compared, built)?;
        return Ok(None);
    }
    expect(
        &format!("{what}, its own tables"),
        compare(what, &own)?,
        Ok(0),
    )?;
    Ok(Some(own))
}

fn compare(what: &str, buffers: &Buffers) -> Checked<Outcome> {
    let call = |calls: &Calls, b: &mut Buffers| {
        let (label, tour, lift) = (&b.label, &b.tour, &b.lift);
        (calls.compare)(&b.parents, label, tour, lift, &b.order, &mut b.work)
    };
    Ok(same(&format!("{what}, compare"), buffers, call)?.0)
}

/// Tables with one other cell are refused at that cell.
fn damaged(what: &str, own: &Buffers, times: usize, draw: &mut Draw) -> Checked {
    for time in 0..times {
        let mut bad = own.clone();
        let before: usize = own.tables()[..time % 4]
            .iter()
            .map(|table| table.len())
            .sum();
        let table = bad.lent().into_iter().nth(time % 4);
        let table = table.expect("there are four");
        let at = draw.below(table.len());
        let right = table[at];
        let others = [right.wrapping_add(1), 0, 65_535, draw.below(65_536) as u16];
        table[at] = others[draw.below(4)];
        let changed = table[at] != right;
        let wanted = if changed {
            Err((8, (before + at) as u64))
        } else {
            Ok(0)
        };
        let what = format!("{what}, cell {at} of table {} changed", time % 4 + 1);
        expect(&what, compare(&what, &bad)?, wanted)?;
    }
    Ok(())
}

/// Buffers that are a cell too long or too short.
fn misfits(what: &str, own: &Buffers) -> Checked {
    for (at, number) in Buffers::NUMBERS.into_iter().enumerate() {
        for longer in [false, true] {
            let mut bad = own.clone();
            let cells = bad.lent().into_iter().nth(at).expect("there are five");
            cells.resize(cells.len() + 2 * longer as usize - 1, 7);
            let what = format!("{what}, buffer {number} misfits");
            expect(&what, compare(&what, &bad)?, Err((3, number)))?;
            expect(&what, subtree(&what, &bad, 0)?, Err((3, number)))?;
            // The answer is buffer 6, and has a cell too few.
            let asked = ask(&what, &bad, &[0, 0], 2, BY_ROUTE[0])?.0;
            expect(&what, asked, Err((3, number.min(6))))?;
        }
    }
    Ok(())
}

/// Where a part's subtree stands in the order table, by addresses, and its count; or the refusal.
fn subtree(what: &str, own: &Buffers, part: usize) -> Checked<Result<(usize, usize), (u32, u64)>> {
    let found = same(what, own, |calls, b| {
        let [label, tour, lift, order] = [&b.label, &b.tour, &b.lift, &b.order];
        let found = (calls.subtree)(&b.parents, label, tour, lift, order, &mut b.work, part)?;
        let bytes = found.as_ptr() as usize - order.as_ptr() as usize;
        Ok((bytes / size_of::<u16>(), found.len()))
    });
    Ok(found?.0)
}

/// Subtrees of some parts, against those that the climber finds to be carried by them, and of numbers that are no parts.
fn subtrees(what: &str, own: &Buffers, parts: &[u16]) -> Checked {
    let n = own.parents.len();
    for &part in parts {
        let what = format!("{what}, subtree of {part}");
        let found = subtree(&what, own, part as usize)?;
        let carried = |v: &&u16| climb::meets(&own.parents, **v, part);
        let wanted: Vec<u16> = own.order.iter().filter(carried).copied().collect();
        let cells = found.map(|(first, count)| &own.order[first..][..count]);
        expect(&what, cells, Ok(&wanted[..]))?;
        for off in [n, n + part as usize, 65_536 + part as usize, usize::MAX] {
            expect(&what, subtree(&what, own, off)?, Err((10, 0)))?;
        }
    }
    Ok(())
}

/// Everything on one sheet.
fn sheet(what: &str, parents: &[u16], draw: &mut Draw) -> Checked {
    totals::sheet(what, parents, draw)?;
    let Some(own) = tables(what, parents, draw)? else {
        return Ok(());
    };
    let question = parts(200, parents.len(), draw);
    questions::answers(what, &own, &question)?;
    let pairs = 1 + draw.below(150);
    questions::pairs(what, &own, &parts(2 * pairs, parents.len(), draw))?;
    // The climber takes long on a long chain.
    let few = if parents.len() > 1_000 { 3 } else { 20 };
    subtrees(what, &own, &question[..few])?;
    questions::refused(what, &own, draw)?;
    misfits(what, &own)?;
    damaged(what, &own, 30, draw)
}

/// Small random and deep sheets, right ones and ones with other entries, and sheets of none and of too many.
pub fn small(count: usize) -> Checked {
    let mut draw = Draw::new(7);
    for time in 0..count {
        let n = 1 + draw.below(40);
        let shape = [random, deep][time % 2];
        let mut parents = shape(n, &mut draw);
        sheet(&format!("small sheet {time}"), &parents, &mut draw)?;
        for _ in 0..1 + draw.below(3) {
            parents[draw.below(n)] = draw.below(n + 1) as u16;
        }
        sheet(&format!("changed sheet {time}"), &parents, &mut draw)?;
    }
    for n in [0, lca::cells::MOST_PARTS + 1] {
        sheet(&format!("{n} entries"), &vec![0; n], &mut draw)?;
    }
    Ok(())
}

/// A sheet that is then measured.
pub fn measured(what: &str, parents: &[u16]) -> Checked {
    sheet(what, parents, &mut Draw::new(11))
}
