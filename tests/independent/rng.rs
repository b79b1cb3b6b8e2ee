//! A small seeded generator (splitmix64): the same seed and stream give the same files everywhere.

use std::cell::Cell;

pub struct Rng(Cell<u64>);

impl Rng {
    pub fn new(seed: u64, stream: u64) -> Rng {
        let rng = Rng(Cell::new(seed.wrapping_mul(0xD134_2543_DE82_EF95) ^ stream));
        rng.next();
        rng
    }

    pub fn next(&self) -> u64 {
        let state = self.0.get().wrapping_add(0x9E37_79B9_7F4A_7C15);
        self.0.set(state);
        let a = (state ^ (state >> 30)).wrapping_mul(0xBF58_476D_1CE4_E5B9);
        let b = (a ^ (a >> 27)).wrapping_mul(0x94D0_49BB_1331_11EB);
        b ^ (b >> 31)
    }

    /// One of 0..n. The remainder's slight bias does no harm here.
    pub fn below(&self, n: usize) -> usize {
        (self.next() % n as u64) as usize
    }

    pub fn between(&self, low: i64, high: i64) -> i64 {
        low + (self.next() % (high - low + 1) as u64) as i64
    }

    pub fn size(&self, low: usize, high: usize) -> usize {
        self.between(low as i64, high as i64) as usize
    }

    pub fn chance(&self, of: usize) -> bool {
        self.below(of) == 0
    }

    pub fn pick<T: Copy>(&self, from: &[T]) -> T {
        from[self.below(from.len())]
    }

    pub fn bytes(&self, length: usize) -> Vec<u8> {
        (0..length).map(|_| self.next() as u8).collect()
    }
}
