//! A sheet that was accepted, with its tables. What is asked of it is in `questions`.

use std::fmt;

use crate::{calls, cells, Refusal};

mod questions;

/// A sheet that is one rooted tree, with its four tables.
///
/// A call that answers first tests the sheet and compares the tables with it, which takes time in proportion to the tables; then each pair
/// of the call costs little. So ask many pairs in one call, by [`pairs`](Tree::pairs), and not one at a time by [`pair`](Tree::pair) or
/// [`carrier`](Tree::carrier). As `docs/PERFORMANCE.md` measured [`calls`] on its machine, on random sheets:
///
/// | parts | a call with one pair, by any route | each further pair of the same call: by labels | by tour | by lifts |
/// |---:|---:|---:|---:|---:|
/// | 64 | 2 µs | 31 ns | 19 ns | 33 ns |
/// | 16,384 | 350 µs | 29 ns | 22 ns | 36 ns |
///
/// Each call allocates its own buffers, which is not in these figures: that costs far less than the comparison, and lets threads share a
/// tree.
///
/// ```
/// use lca::{Refusal, Tree};
///
/// # fn main() -> Result<(), Refusal> {
/// let tree = Tree::new(&[0, 0, 0, 1, 1, 2, 5])?;
/// assert_eq!(tree.len(), 7);
/// assert_eq!(tree.carrier(3, 6)?, 0);
///
/// // No part of this sheet names itself.
/// let refusal = Tree::new(&[1, 0]).unwrap_err();
/// assert_eq!(refusal.number, Refusal::ROOTLESS);
/// # Ok(())
/// # }
/// ```
#[derive(Clone, PartialEq, Eq)]
pub struct Tree {
    parents: Box<[u16]>,
    label: Box<[u16]>,
    tour: Box<[u16]>,
    lift: Box<[u16]>,
    order: Box<[u16]>,
}

impl Tree {
    /// Builds the tables of a sheet (tests 1 to 7).
    pub fn new(parents: &[u16]) -> Result<Tree, Refusal> {
        let n = parents.len();
        let mut label = zeros(cells::label(n));
        let mut tour = zeros(cells::tour(n));
        let mut lift = zeros(cells::lift(n));
        let mut order = zeros(cells::order(n));
        calls::build(
            parents,
            &mut label,
            &mut tour,
            &mut lift,
            &mut order,
            &mut zeros(cells::work(n)),
        )?;
        Ok(Tree {
            parents: parents.into(),
            label,
            tour,
            lift,
            order,
        })
    }

    /// Takes tables that were kept, if they are the sheet's own in every cell (tests 1 to 8).
    ///
    /// ```
    /// use lca::{Refusal, Tree};
    ///
    /// # fn main() -> Result<(), Refusal> {
    /// let kept = Tree::new(&[0, 0, 0])?;
    /// let again = |sheet| Tree::from_tables(sheet, kept.label(), kept.tour(), kept.lift(), kept.order());
    /// assert_eq!(again(&[0, 0, 0])?, kept);
    ///
    /// // The first cell that differs is SIZE of part 1, now 2.
    /// let refusal = again(&[0, 0, 1]).unwrap_err();
    /// assert_eq!(refusal, Refusal { number: Refusal::STALE, place: 4 });
    /// # Ok(())
    /// # }
    /// ```
    pub fn from_tables(
        parents: &[u16],
        label: &[u16],
        tour: &[u16],
        lift: &[u16],
        order: &[u16],
    ) -> Result<Tree, Refusal> {
        let mut work = zeros(cells::work(parents.len()));
        calls::compare(parents, label, tour, lift, order, &mut work)?;
        Ok(Tree {
            parents: parents.into(),
            label: label.into(),
            tour: tour.into(),
            lift: lift.into(),
            order: order.into(),
        })
    }

    /// Accepts a sheet that is one rooted tree (tests 1 to 7), and builds nothing.
    ///
    /// ```
    /// use lca::{Refusal, Tree};
    ///
    /// assert_eq!(Tree::check(&[1, 1]), Ok(()));
    /// assert_eq!(Tree::check(&[0, 1]), Err(Refusal { number: Refusal::SECOND_ROOT, place: 1 }));
    /// ```
    pub fn check(parents: &[u16]) -> Result<(), Refusal> {
        calls::check(parents, &mut zeros(cells::work(parents.len())))
    }

    /// The sheet.
    pub fn parents(&self) -> &[u16] {
        &self.parents
    }

    /// The label table: PREORDER, SIZE, LEVEL, INLABEL, ASCENDANT and HEAD, a cell of each for each part.
    pub fn label(&self) -> &[u16] {
        &self.label
    }

    /// The tour table: the visits, each part's first position, and row k: from each position on, the first of least level among 2^k.
    pub fn tour(&self) -> &[u16] {
        &self.tour
    }

    /// The lift table: row k has each part's carrier 2^k steps up, or the root if that is nearer.
    pub fn lift(&self) -> &[u16] {
        &self.lift
    }

    /// The order table: the parts in preorder. A [`subtree`](Tree::subtree) is a stretch of it.
    pub fn order(&self) -> &[u16] {
        &self.order
    }

    /// The count of parts.
    pub fn len(&self) -> usize {
        self.parents.len()
    }

    /// False: a sheet of no parts is refused.
    pub fn is_empty(&self) -> bool {
        self.parents.is_empty()
    }
}

impl TryFrom<&[u16]> for Tree {
    type Error = Refusal;

    fn try_from(parents: &[u16]) -> Result<Tree, Refusal> {
        Tree::new(parents)
    }
}

/// Shows the sheet; the tables follow from it.
impl fmt::Debug for Tree {
    fn fmt(&self, f: &mut fmt::Formatter<'_>) -> fmt::Result {
        f.debug_struct("Tree")
            .field("parents", &self.parents)
            .finish_non_exhaustive()
    }
}

fn zeros(cells: usize) -> Box<[u16]> {
    vec![0; cells].into_boxed_slice()
}
