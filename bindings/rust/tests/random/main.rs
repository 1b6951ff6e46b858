//! The library compared with a plain model on random sheets, long and short, sound and damaged: every call's result, and every cell of
//! every buffer afterwards. A failure names the seed of its sheet.

mod model;
mod refusals;
mod sheets;
mod support;
mod trees;
