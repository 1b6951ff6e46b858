//! The sheets that are measured, and numbers drawn from a fixed seed.

/// A small generator (xorshift*), so that every run measures the same sheets.
pub struct Draw(u64);

impl Draw {
    pub fn new(seed: u64) -> Self {
        Draw(seed.wrapping_mul(0x9E37_79B9_7F4A_7C15) | 1)
    }

    /// A number below `bound`.
    pub fn below(&mut self, bound: usize) -> usize {
        self.0 ^= self.0 >> 12;
        self.0 ^= self.0 << 25;
        self.0 ^= self.0 >> 27;
        let high = self.0.wrapping_mul(0x2545_F491_4F6C_DD1D) >> 32;
        (high as usize * bound) >> 32
    }
}

#[derive(Clone, Copy, Debug, PartialEq, Eq)]
pub enum Shape {
    Chain,
    Star,
    Random,
    Deep,
}

/// Parts of the sheets that are measured.
pub const SIZES: [usize; 4] = [64, 512, 4_096, 16_384];
/// The shapes on which every call is measured. On deep sheets, the calls for pairs are.
pub const SHAPES: [Shape; 3] = [Shape::Chain, Shape::Star, Shape::Random];
pub const ALL_SHAPES: [Shape; 4] = [Shape::Chain, Shape::Star, Shape::Random, Shape::Deep];

impl Shape {
    pub fn name(self) -> &'static str {
        match self {
            Shape::Chain => "chain",
            Shape::Star => "star",
            Shape::Random => "random",
            Shape::Deep => "deep",
        }
    }

    /// Chain and star in natural order, the root 0; random: each node's parent is any earlier one, then all numbers are shuffled; deep: the
    /// same, but each node's parent is one of the 8 before it, so that depth grows in proportion to n.
    pub fn sheet(self, n: usize) -> Vec<u16> {
        match self {
            Shape::Chain => (0..n).map(|v| v.saturating_sub(1) as u16).collect(),
            Shape::Star => vec![0; n],
            Shape::Random => random(n, &mut Draw::new(n as u64)),
            Shape::Deep => deep(n, &mut Draw::new(n as u64)),
        }
    }
}

/// A random recursive tree under a random permutation of its numbers.
pub fn random(n: usize, draw: &mut Draw) -> Vec<u16> {
    shuffled(n, draw, |v, draw| draw.below(v))
}

/// The same, but each node's parent is one of the 8 before it.
pub fn deep(n: usize, draw: &mut Draw) -> Vec<u16> {
    shuffled(n, draw, |v, draw| v - 1 - draw.below(v.min(8)))
}

/// A tree whose nodes 1 and up have these parents, under a random permutation of its numbers.
fn shuffled(n: usize, draw: &mut Draw, parent: fn(usize, &mut Draw) -> usize) -> Vec<u16> {
    let mut name: Vec<u16> = (0..n as u16).collect();
    for i in (1..n).rev() {
        name.swap(i, draw.below(i + 1));
    }
    let mut parents = vec![name[0]; n];
    for v in 1..n {
        parents[name[v] as usize] = name[parent(v, draw)];
    }
    parents
}

/// A count of wear for each of n parts, any number of 32 bits.
pub fn counts(n: usize, draw: &mut Draw) -> Vec<u32> {
    (0..n).map(|_| draw.below(1 << 32) as u32).collect()
}

/// A list of `count` parts below n.
pub fn parts(count: usize, n: usize, draw: &mut Draw) -> Vec<u16> {
    (0..count).map(|_| draw.below(n) as u16).collect()
}
