//! Why a call was refused.

use std::error::Error;
use std::fmt;

/// A refused call: the number on the operator's card, and the place.
///
/// Each number below is a test's. Tests run in their order, as far as the call has such input, and the first that fails is told. What a
/// place is depends on the number, and stands beside each constant below. A constant's name is the operator's word for its number
/// ([`word`](Refusal::word)), and the name in C without `LCA_`.
///
/// ```
/// use lca::{Refusal, Tree};
///
/// // Part 1 is bolted into part 2, and part 2 into part 1.
/// let refusal = Tree::new(&[0, 2, 1]).unwrap_err();
/// assert_eq!(refusal, Refusal { number: Refusal::LOOP, place: 1 });
/// assert_eq!(refusal.word(), "loop");
/// assert_eq!(refusal.to_string(), "refused 7 (loop) at 1");
/// ```
#[derive(Clone, Copy, Debug, PartialEq, Eq, Hash)]
pub struct Refusal {
    /// The number, one of the constants below.
    pub number: u32,
    /// The place.
    pub place: u64,
}

impl Refusal {
    /// The sheet has no part. Place: 0.
    pub const BARE: u32 = 1;
    /// The sheet has more than [`MOST_PARTS`](crate::cells::MOST_PARTS) parts. Place: 0.
    pub const OVERSIZE: u32 = 2;
    /// A buffer hasn't its exact length. Place: the lowest such buffer, of 1 label, 2 tour, 3 lift, 4 work, 5 question, 6 answer, 7 trail,
    /// 8 order, 9 counts, 10 totals.
    pub const MISFIT: u32 = 3;
    /// An entry is n or more, of n parts. Place: the lowest part with such an entry.
    pub const OFF_SHEET: u32 = 4;
    /// No part names itself. Place: 0.
    pub const ROOTLESS: u32 = 5;
    /// Two or more parts name themselves. Place: the second lowest of them.
    pub const SECOND_ROOT: u32 = 6;
    /// A part's climb never meets the root. Place: the lowest such part.
    pub const LOOP: u32 = 7;
    /// A table's cell isn't this sheet's. Place: the first such cell, from 0, of label, tour, lift and order end to end.
    pub const STALE: u32 = 8;
    /// The question is empty. Place: 0.
    pub const NOTHING_LISTED: u32 = 9;
    /// A number in the question is n or more, of n parts. Place: the first such position in the question, from 0, two to a pair; 0 where a
    /// subtree is asked for, of one part.
    pub const NO_SUCH_PART: u32 = 10;
    /// The parts asked for have no common carrier. Place: 0. No sheet that passes the tests before has such parts.
    pub const ADRIFT: u32 = 11;
    /// The program `report` alone gives this one: a line breaks its forms. Place: the line's number, from 1.
    pub const ILLEGIBLE: u32 = 12;

    /// The operator's word for the number: "unknown" for one off the card.
    pub const fn word(&self) -> &'static str {
        match self.number {
            Self::BARE => "bare",
            Self::OVERSIZE => "oversize",
            Self::MISFIT => "misfit",
            Self::OFF_SHEET => "off sheet",
            Self::ROOTLESS => "rootless",
            Self::SECOND_ROOT => "second root",
            Self::LOOP => "loop",
            Self::STALE => "stale",
            Self::NOTHING_LISTED => "nothing listed",
            Self::NO_SUCH_PART => "no such part",
            Self::ADRIFT => "adrift",
            Self::ILLEGIBLE => "illegible",
            _ => "unknown",
        }
    }
}

impl fmt::Display for Refusal {
    fn fmt(&self, f: &mut fmt::Formatter<'_>) -> fmt::Result {
        write!(
            f,
            "refused {} ({}) at {}",
            self.number,
            self.word(),
            self.place
        )
    }
}

impl Error for Refusal {}

#[cfg(test)]
mod tests {
    use super::*;

    #[test]
    fn every_number_has_the_card_s_word() {
        let card = [
            "bare",
            "oversize",
            "misfit",
            "off sheet",
            "rootless",
            "second root",
            "loop",
            "stale",
            "nothing listed",
            "no such part",
            "adrift",
            "illegible",
        ];
        for (number, word) in (1..).zip(card) {
            assert_eq!(Refusal { number, place: 0 }.word(), word);
        }
    }

    #[test]
    fn numbers_off_the_card_have_no_word() {
        for number in [0, 13, u32::MAX] {
            assert_eq!(Refusal { number, place: 0 }.word(), "unknown");
        }
    }

    #[test]
    fn a_refusal_is_an_error_that_reads_well() {
        let error: Box<dyn Error> = Box::new(Refusal {
            number: 10,
            place: u64::MAX,
        });
        assert_eq!(
            error.to_string(),
            "refused 10 (no such part) at 18446744073709551615"
        );
    }
}
