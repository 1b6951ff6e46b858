//! How many cells each buffer has, for a sheet of n parts.
//!
//! There are no tables for 0 parts, nor for more than [`MOST_PARTS`]: every function here then gives 0.

/// The most parts that a sheet can have.
pub const MOST_PARTS: usize = 16_384;

/// The cells of a pair's answer: the carrier, the branch towards x, the branch towards y.
pub const ANSWER: usize = 3;

/// The cells of a trail's buffer: 32 rows of two.
pub const TRAIL: usize = 64;

/// What a cell holds that stands for nothing: an unused cell of a trail, a HEAD of no part, a block past the tour's end.
pub const NO_CELL: u16 = 65_535;

/// The cells of the label table: 6n.
pub const fn label(n: usize) -> usize {
    if has_tables(n) {
        6 * n
    } else {
        0
    }
}

/// The cells of the tour table: (2n−1)(t+2)+n, where t is log(2n−1), to base 2 and rounded down.
pub const fn tour(n: usize) -> usize {
    if has_tables(n) {
        let visits = 2 * n - 1;
        visits * (visits.ilog2() as usize + 2) + n
    } else {
        0
    }
}

/// The cells of the lift table: n(l+1), where l is log n, to base 2 and rounded down.
pub const fn lift(n: usize) -> usize {
    if has_tables(n) {
        n * (n.ilog2() as usize + 1)
    } else {
        0
    }
}

/// The cells of the order table: n.
pub const fn order(n: usize) -> usize {
    if has_tables(n) {
        n
    } else {
        0
    }
}

/// The cells of the work buffer: 4n.
pub const fn work(n: usize) -> usize {
    if has_tables(n) {
        4 * n
    } else {
        0
    }
}

/// The cells of the counts, of 32 bits each: n.
pub const fn counts(n: usize) -> usize {
    if has_tables(n) {
        n
    } else {
        0
    }
}

/// The cells of the totals, of 64 bits each: n.
pub const fn totals(n: usize) -> usize {
    if has_tables(n) {
        n
    } else {
        0
    }
}

const fn has_tables(n: usize) -> bool {
    0 < n && n <= MOST_PARTS
}

#[cfg(test)]
mod tests {
    use super::*;

    /// All lengths for n parts: label, tour, lift, order, work, counts and totals.
    fn all(n: usize) -> [usize; 7] {
        [label, tour, lift, order, work, counts, totals].map(|cells| cells(n))
    }

    #[test]
    fn seven_parts_have_42_72_21_and_7_cells() {
        assert_eq!(all(7), [42, 72, 21, 7, 28, 7, 7]);
    }

    #[test]
    fn one_part_has_a_tour_of_one_visit() {
        assert_eq!(all(1), [6, 3, 1, 1, 4, 1, 1]);
    }

    #[test]
    fn the_longest_sheet_has_its_tables() {
        // 32,767 visits, t = 14; l = 14.
        assert_eq!(label(MOST_PARTS), 98_304);
        assert_eq!(tour(MOST_PARTS), 32_767 * 16 + 16_384);
        assert_eq!(lift(MOST_PARTS), 16_384 * 15);
        assert_eq!(order(MOST_PARTS), 16_384);
        assert_eq!(work(MOST_PARTS), 65_536);
        assert_eq!(counts(MOST_PARTS), 16_384);
        assert_eq!(totals(MOST_PARTS), 16_384);
    }

    #[test]
    fn no_other_length_has_tables() {
        for n in [0, MOST_PARTS + 1, usize::MAX] {
            assert_eq!(all(n), [0; 7]);
        }
    }
}
