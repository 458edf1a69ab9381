//! A small random source of our own (splitmix64): the same seed, group and
//! index always give the same input.

/// The state of the source.
pub struct Random(u64);

impl Random {
    /// A source for one input of one group.
    pub fn new(seed: u64, group: u64, index: u64) -> Self {
        let mut source = Random(seed);
        for part in [group, index] {
            source.0 = source.word() ^ part.wrapping_mul(0xa076_1d64_78bd_642f);
        }
        source
    }

    /// The next 64 bits.
    pub fn word(&mut self) -> u64 {
        self.0 = self.0.wrapping_add(0x9e37_79b9_7f4a_7c15);
        let mut z = self.0;
        z = (z ^ (z >> 30)).wrapping_mul(0xbf58_476d_1ce4_e5b9);
        z = (z ^ (z >> 27)).wrapping_mul(0x94d0_49bb_1331_11eb);
        z ^ (z >> 31)
    }

    /// A number below `end`, which is not 0.
    pub fn below(&mut self, end: usize) -> usize {
        (self.word() % end as u64) as usize
    }

    /// True once in `times`.
    pub fn once_in(&mut self, times: usize) -> bool {
        self.below(times) == 0
    }

    /// One of the items.
    pub fn pick<T: Copy>(&mut self, items: &[T]) -> T {
        items[self.below(items.len())]
    }
}
