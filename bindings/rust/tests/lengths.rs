//! The lengths of the buffers against the archive, for every sheet that has tables.

use lca::{calls, cells, Refusal};

const OFF_SHEET: Result<(), Refusal> = Err(Refusal {
    number: Refusal::OFF_SHEET,
    place: 0,
});

/// A sheet of the most parts; the first entry is off it, and off every shorter one.
fn sheet() -> Vec<u16> {
    let mut sheet = vec![0; cells::MOST_PARTS];
    sheet[0] = cells::MOST_PARTS as u16;
    sheet
}

/// A call takes one length of each buffer and no other. It takes these, since it gets as far as the first entry.
#[test]
fn build_takes_these_lengths_for_every_n() {
    let (most, sheet) = (cells::MOST_PARTS, sheet());
    let (mut label, mut tour) = (vec![0; cells::label(most)], vec![0; cells::tour(most)]);
    let (mut lift, mut order) = (vec![0; cells::lift(most)], vec![0; cells::order(most)]);
    let mut work = vec![0; cells::work(most)];
    for n in 1..=most {
        let built = calls::build(
            &sheet[..n],
            &mut label[..cells::label(n)],
            &mut tour[..cells::tour(n)],
            &mut lift[..cells::lift(n)],
            &mut order[..cells::order(n)],
            &mut work[..cells::work(n)],
        );
        assert_eq!(built, OFF_SHEET, "{n} parts");
    }
}

#[test]
fn totals_takes_these_lengths_for_every_n() {
    let (most, sheet) = (cells::MOST_PARTS, sheet());
    let (counts, mut totals) = (vec![0; cells::counts(most)], vec![0; cells::totals(most)]);
    let mut work = vec![0; cells::work(most)];
    for n in 1..=most {
        let summed = calls::totals(
            &sheet[..n],
            &mut work[..cells::work(n)],
            &counts[..cells::counts(n)],
            &mut totals[..cells::totals(n)],
        );
        assert_eq!(summed, OFF_SHEET, "{n} parts");
    }
}
