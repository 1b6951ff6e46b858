//! Sheets of many shapes, sound and damaged.

use super::Rng;

#[derive(Clone, Copy, Debug)]
pub enum Shape {
    Chain,
    Star,
    Binary,
    /// A chain of half of the parts, and the others bolted into it.
    Caterpillar,
    /// Each part bolted into any before it.
    Random,
    /// Each part bolted into one of the few before it.
    Deep,
}

impl Shape {
    pub const ALL: [Shape; 6] = [
        Shape::Chain,
        Shape::Star,
        Shape::Binary,
        Shape::Caterpillar,
        Shape::Random,
        Shape::Deep,
    ];

    /// The entry of part v, which is not 0, among n parts.
    fn entry(self, v: usize, n: usize, rng: &mut Rng) -> usize {
        match self {
            Shape::Chain => v - 1,
            Shape::Star => 0,
            Shape::Binary => (v - 1) / 2,
            Shape::Caterpillar if v <= n / 2 => v - 1,
            Shape::Caterpillar => rng.below(n / 2 + 1),
            Shape::Random => rng.below(v),
            Shape::Deep => v - 1 - rng.below(v.min(4)),
        }
    }
}

/// A sheet of n parts that is one rooted tree; `shuffled`, its parts have random numbers.
pub fn sheet(shape: Shape, n: usize, shuffled: bool, rng: &mut Rng) -> Vec<u16> {
    let mut number: Vec<u16> = (0..n as u16).collect();
    if shuffled {
        for last in (1..n).rev() {
            number.swap(last, rng.below(last + 1));
        }
    }
    let mut parents = vec![0; n];
    for v in 0..n {
        let entry = if v == 0 { 0 } else { shape.entry(v, n, rng) };
        parents[number[v] as usize] = number[entry];
    }
    parents
}

#[derive(Clone, Copy, Debug)]
pub enum Damage {
    /// Entries that are no parts.
    OffSheet,
    /// The root bolted into another part.
    Rootless,
    /// Parts that name themselves beside the root.
    SecondRoot,
    /// A part bolted into one that it carries.
    Loop,
    /// Every entry any part.
    Anything,
}

impl Damage {
    pub const ALL: [Damage; 5] = [
        Damage::OffSheet,
        Damage::Rootless,
        Damage::SecondRoot,
        Damage::Loop,
        Damage::Anything,
    ];
}

/// The sheet, of two parts or more, with damage. Only `Anything` can leave one rooted tree, and so can `Loop` where the root alone carries
/// others.
pub fn damaged(damage: Damage, parents: &[u16], rng: &mut Rng) -> Vec<u16> {
    let n = parents.len();
    let mut parents = parents.to_vec();
    match damage {
        Damage::OffSheet => {
            for _ in 0..=rng.below(3) {
                let beyond = n + rng.below(65_536 - n);
                parents[rng.below(n)] = rng.pick(&[n, 65_535, beyond]) as u16;
            }
        }
        Damage::Rootless => {
            let root = (0..n).find(|&v| parents[v] as usize == v).unwrap();
            parents[root] = ((root + 1 + rng.below(n - 1)) % n) as u16;
        }
        Damage::SecondRoot => {
            for _ in 0..=rng.below(3) {
                let root = (0..n).find(|&v| parents[v] as usize == v).unwrap();
                let other = (root + 1 + rng.below(n - 1)) % n;
                parents[other] = other as u16;
            }
        }
        Damage::Loop => tie_a_loop(&mut parents, rng),
        Damage::Anything => parents.fill_with(|| rng.below(n) as u16),
    }
    parents
}

/// Bolts a random part's carrier below the root into that part.
fn tie_a_loop(parents: &mut [u16], rng: &mut Rng) {
    let is_root = |v: usize| parents[v] as usize == v;
    for _ in 0..100 {
        let low = rng.below(parents.len());
        let mut high = low;
        loop {
            let above = parents[high] as usize;
            if is_root(above) || (high != low && rng.once_in(3)) {
                break;
            }
            high = above;
        }
        if high != low {
            parents[high] = low as u16;
            return;
        }
    }
}
