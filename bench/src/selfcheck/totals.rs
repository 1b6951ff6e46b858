//! Totals by both implementations, on accepted and refused input, against the climber's.

use super::{expect, same, Checked};
use crate::buffers::Buffers;
use crate::candidates::{Outcome, RUST};
use crate::climb;
use crate::sheets::Draw;

/// The totals of a sheet, which is accepted or refused as `check` does, with other numbers in work and totals before.
pub fn sheet(what: &str, parents: &[u16], draw: &mut Draw) -> Checked {
    let what = &format!("{what}, totals");
    let mut before = Buffers::new(parents.to_vec());
    let checked = (RUST.check)(parents, &mut before.work);
    before.work.fill_with(|| draw.below(65_536) as u16);
    before
        .totals
        .fill_with(|| (draw.below(1 << 32) << 32 | draw.below(1 << 32)) as u64);
    sums(what, &before, checked)?;
    before.counts.fill(u32::MAX);
    sums(what, &before, checked)?;
    if checked.is_ok() {
        misfits(what, &before)?;
    }
    Ok(())
}

/// One call, which leaves the climber's totals, or where it is refused those from before.
fn sums(what: &str, before: &Buffers, wanted: Outcome) -> Checked {
    let (outcome, after) = call(what, before)?;
    expect(what, outcome, wanted)?;
    let totals = match wanted {
        Ok(_) => climb::totals(&before.parents, &before.counts),
        Err(_) => before.totals.clone(),
    };
    expect(what, after.totals, totals)
}

fn call(what: &str, before: &Buffers) -> Checked<(Outcome, Buffers)> {
    same(what, before, |calls, b| {
        (calls.totals)(&b.parents, &mut b.work, &b.counts, &mut b.totals)
    })
}

/// Buffers of which some are a cell too short or too long: the lowest is named, and all stay as they were.
fn misfits(what: &str, own: &Buffers) -> Checked {
    let n = own.parents.len();
    for code in 0..27 {
        let [work, counts, totals] = [code / 9, code / 3 % 3, code % 3];
        let mut bad = own.clone();
        bad.work.resize(4 * n + work - 1, 7);
        bad.counts.resize(n + counts - 1, 7);
        bad.totals.resize(n + totals - 1, 7);
        let lowest = match [work, counts, totals] {
            [1, 1, 1] => continue,
            [1, 1, _] => 10,
            [1, _, _] => 9,
            _ => 4,
        };
        let (outcome, after) = call(what, &bad)?;
        expect(what, outcome, Err((3, lowest)))?;
        expect(what, after == bad, true)?;
    }
    Ok(())
}
