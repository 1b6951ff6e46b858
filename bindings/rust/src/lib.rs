//! Lowest common ancestors in a rooted tree of 1 to 16,384 nodes, in the words of a parts sheet: a safe API over the proved library
//! `liblca.a`.
//!
//! | term | what it is |
//! |---|---|
//! | part | a node of the tree; n parts have the numbers 0 to n − 1 |
//! | sheet | the tree, as a list of n entries: entry v is the part into which part v is bolted, its parent |
//! | root | the part that names itself: its entry is its own number |
//! | level | the steps from a part up to the root; a step goes from a part to its entry |
//! | carries | a part carries itself and all that is bolted into what it carries: it is an ancestor of each |
//! | subtree | of a part, the parts that it carries ([`Tree::subtree`]) |
//! | carrier | of two parts, or of a list, their lowest common ancestor: the common carrier that all others of theirs carry, the smallest assembly |
//! | branch | of a carrier towards a part that it carries: the part directly below the carrier on the way there; the carrier itself if it is that part ([`Answer`]) |
//! | route | a way to find the carrier of a pair: by labels, by tour or by lifts ([`Route`]). All give the same answers |
//! | lift | one raise by the lift route, of one part or of both, by 2^k steps |
//! | trail | the lifts of a pair in order: after each, where the two parts are ([`Trail`]) |
//! | preorder | an order of the parts: the root first, a part before all else that it carries, and parts with one entry by rising number |
//! | count | of a part, its wear, a whole number of 32 bits |
//! | total | of a part, the wear of its assembly, in 64 bits: the sum of the counts of all parts that it carries ([`Tree::totals`]) |
//!
//! ```
//! use lca::{Answer, Tree};
//!
//! # fn main() -> Result<(), lca::Refusal> {
//! // Parts 1 and 2 are bolted into the root 0, parts 3 and 4 into 1, part 5 into 2, part 6 into 5.
//! let tree = Tree::new(&[0, 0, 0, 1, 1, 2, 5])?;
//! assert_eq!(tree.carrier(3, 4)?, 1);
//!
//! // By which branch: the carrier of 3 and 6 is 0, and the ways down to them begin with 1 and 2.
//! assert_eq!(tree.pair(3, 6)?, Answer { carrier: 0, x_branch: 1, y_branch: 2 });
//! let answers = tree.pairs_by_labels(&[(3, 4), (3, 6), (5, 6)])?;
//! assert_eq!(answers[2], Answer { carrier: 5, x_branch: 5, y_branch: 6 });
//!
//! assert_eq!(tree.list(&[6, 5, 2])?, 2);
//! assert_eq!(tree.trail(3, 6)?.rows, [(3, 5), (1, 2), (0, 0)]);
//! assert_eq!(tree.subtree(2)?, [2, 5, 6]);
//! assert_eq!(tree.totals(&[1, 2, 4, 8, 16, 32, 64])?, [127, 26, 100, 8, 16, 96, 64]);
//!
//! // What cannot be answered is refused, with a number and a place.
//! let refusal = tree.carrier(3, 7).unwrap_err();
//! assert_eq!(refusal.to_string(), "refused 10 (no such part) at 1");
//! # Ok(())
//! # }
//! ```
//!
//! A call that answers first compares the tables with the sheet, which takes far longer than a pair: ask many pairs in one call
//! ([`Tree`] has the figures).
//!
//! [`Tree`] owns a sheet and its tables. [`calls`] has the library's calls themselves, on buffers that the caller lends, and [`cells`]
//! the buffers' lengths. Nothing here adds a rule about carriers: the library decides, and its calls are proved.
//!
//! The routes by labels and by tour are from the literature:
//!
//! - B. Schieber and U. Vishkin, "On finding lowest common ancestors: simplification and parallelization", SIAM Journal on Computing 17
//!   (1988);
//! - M. A. Bender and M. Farach-Colton, "The LCA problem revisited", LATIN 2000.

#![warn(missing_docs)]
#![deny(unsafe_op_in_unsafe_fn)]

mod answer;
pub mod calls;
pub mod cells;
mod ffi;
mod refusal;
mod route;
mod tree;

pub use answer::{Answer, Trail};
pub use refusal::Refusal;
pub use route::Route;
pub use tree::Tree;

/// The version of the C interface that this crate is written for: `LCA_VERSION` of `include/lca.h`.
///
/// Every change of a call, of a length or of a number's meaning raises it. [`calls::version`] gives that of the archive which is linked; a
/// program that is lent an archive by others may compare both before its first call.
///
/// ```
/// assert_eq!(lca::calls::version(), lca::VERSION);
/// ```
pub const VERSION: u32 = 4;

#[cfg(doctest)]
#[doc = include_str!("../README.md")]
struct Readme;
