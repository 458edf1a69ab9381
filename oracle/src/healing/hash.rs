//! A hasher that stands in for `rustc_hash`, which the Rust uses and which is
//! not at hand: of the same family, so that the maps cost about the same.

use std::hash::{BuildHasherDefault, Hasher};

/// What makes the maps; the same in every run.
pub type Build = BuildHasherDefault<Multiplied>;

/// The state: turned, mixed with each word and multiplied.
#[derive(Clone, Copy, Default)]
pub struct Multiplied(u64);

/// An odd number whose bits lie without a pattern (2^64 over the golden ratio).
const FACTOR: u64 = 0x9e37_79b9_7f4a_7c15;

impl Hasher for Multiplied {
    fn write(&mut self, bytes: &[u8]) {
        for part in bytes.chunks(8) {
            let mut word = [0; 8];
            word[..part.len()].copy_from_slice(part);
            self.write_u64(u64::from_le_bytes(word));
        }
    }

    fn write_u64(&mut self, word: u64) {
        self.0 = (self.0.rotate_left(5) ^ word).wrapping_mul(FACTOR);
    }

    fn write_usize(&mut self, word: usize) {
        self.write_u64(word as u64);
    }

    fn finish(&self) -> u64 {
        self.0
    }
}

#[cfg(test)]
mod tests {
    use super::Build;
    use std::collections::HashSet;
    use std::hash::BuildHasher;

    /// The lowest bits choose a bucket and the highest seven mark it.
    #[test]
    fn small_numbers_are_spread() {
        let hashes = (0..4096_usize).map(|number| Build::default().hash_one(number));
        let hashes: Vec<u64> = hashes.collect();
        let buckets: HashSet<u64> = hashes.iter().map(|hash| hash % 4096).collect();
        let marks: HashSet<u64> = hashes.iter().map(|hash| hash >> 57).collect();
        assert_eq!((buckets.len(), marks.len()), (4096, 128));
    }
}
