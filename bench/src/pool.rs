//! The questions that are measured: a pool of parts, of which each call takes the next ones. A processor learns the jumps of questions that
//! come again and again, so that code with jumps looks faster than it is on new ones.

use crate::sheets::{parts, Draw};

/// Pairs in a pool: 64 times the most that a call asks for.
const PAIRS: usize = 64 * 10_000;

pub struct Pool {
    parts: Vec<u16>,
    /// How far each of those who are asked has come.
    next: Vec<usize>,
}

impl Pool {
    /// A pool for a sheet of n parts, the same in every run, and so many who are asked.
    pub fn new(n: usize, asked: usize) -> Self {
        Pool {
            parts: parts(2 * PAIRS, n, &mut Draw::new(n as u64 + 1)),
            next: vec![0; asked],
        }
    }

    /// The next so many parts, or the first if there are not so many left. All who are asked get the same ones, one question after another.
    pub fn next(&mut self, who: usize, count: usize) -> &[u16] {
        let next = &mut self.next[who];
        if *next + count > self.parts.len() {
            *next = 0;
        }
        *next += count;
        &self.parts[*next - count..*next]
    }
}
