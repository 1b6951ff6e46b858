//! A plain implementation of the library's calls, written from the words of documents 01 and 02 alone. It climbs, scans and counts, and
//! shares nothing with the library.

mod answers;
mod calls;
mod checks;
mod lent;
mod sheet;
mod tables;

pub use answers::{branch, carrier, common_carrier, pair, subtree, totals, trail};
pub use calls::{Call, Plain};
pub use lent::{Lent, BUFFERS, TABLES};
pub use sheet::{carriers, not_one_tree, Refused, MOST_PARTS};
pub use tables::{log, Tables, NONE};
