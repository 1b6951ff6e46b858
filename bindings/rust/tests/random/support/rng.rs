//! A small random generator (splitmix64): the same numbers for the same seed.

pub struct Rng(u64);

impl Rng {
    pub fn new(seed: u64) -> Rng {
        Rng(seed)
    }

    pub fn next(&mut self) -> u64 {
        self.0 = self.0.wrapping_add(0x9e37_79b9_7f4a_7c15);
        let z = (self.0 ^ (self.0 >> 30)).wrapping_mul(0xbf58_476d_1ce4_e5b9);
        let z = (z ^ (z >> 27)).wrapping_mul(0x94d0_49bb_1331_11eb);
        z ^ (z >> 31)
    }

    /// A number below `limit`, which is not 0.
    pub fn below(&mut self, limit: usize) -> usize {
        (self.next() % limit as u64) as usize
    }

    pub fn cell(&mut self) -> u16 {
        self.next() as u16
    }

    pub fn cells(&mut self, count: usize) -> Vec<u16> {
        (0..count).map(|_| self.cell()).collect()
    }

    /// So many counts of wear: any, and often none or the most there can be.
    pub fn counts(&mut self, count: usize) -> Vec<u32> {
        let mut one = || {
            let any = self.next() as u32;
            self.pick(&[any, any, 0, u32::MAX])
        };
        (0..count).map(|_| one()).collect()
    }

    pub fn pick<T: Copy>(&mut self, from: &[T]) -> T {
        from[self.below(from.len())]
    }

    /// True once in `times`, on average.
    pub fn once_in(&mut self, times: usize) -> bool {
        self.below(times) == 0
    }
}
