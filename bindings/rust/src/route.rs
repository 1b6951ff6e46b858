//! The ways to find the carriers of pairs.

/// The table by which the carriers of pairs are found. All give the same answers, branches and all.
///
/// What is said of a pair's time is what a further pair of the same call costs. Before its first pair a call compares the tables with the
/// sheet, which takes time in proportion to the tables, whatever the route: [`Tree`](crate::Tree) has the figures.
#[derive(Clone, Copy, Debug, PartialEq, Eq, Hash)]
pub enum Route {
    /// By the label table, in constant time a further pair (Schieber and Vishkin 1988).
    Labels,
    /// By the tour table, in constant time a further pair (Bender and Farach-Colton 2000).
    Tour,
    /// By the lift table, in up to about 2 log n + 2 steps a further pair: the deeper part is raised to the other's level by falling powers
    /// of two. If the parts then differ, both are raised by falling powers of two while they stay different, and then both by one. The
    /// branches take constant time.
    Lifts,
}
