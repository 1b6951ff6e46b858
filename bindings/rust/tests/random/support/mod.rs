//! What the comparison with the plain model is made of: random numbers, sheets, and the library's calls on fenced buffers.

mod alter;
mod case;
mod fenced;
mod rng;
mod sheets;

pub use alter::{alter_cell, alter_length, change, edges, empty_question, name_no_part, Length};
pub use case::{sound_cases, Case};
pub use rng::Rng;
pub use sheets::{damaged, sheet, Damage, Shape};
