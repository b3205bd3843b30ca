//! Inputs for comparing implementations, the same ones from the same seed on every machine.
//!
//! `requests` makes requests, whole and damaged; `controller` all that a controller call is
//! lent; `building`, `sender` and `table` what the loader's calls are lent. Most inputs are allowed and
//! near an edge, so that the deep rules are met as often as the first checks.

pub mod building;
pub mod controller;
pub mod requests;
pub mod sender;
pub mod table;

/// A small generator (xorshift64*); good enough to choose tests by.
#[derive(Clone, Debug)]
pub struct Random(u64);

impl Random {
    pub fn new(seed: u64) -> Random {
        // Spread the seed, which may be small or 0, over all bits; the state is never 0.
        Random((seed ^ 0x5DEE_CE66_D1CE_4E5B).wrapping_mul(0x9E37_79B9_7F4A_7C15) | 1)
    }

    pub fn long(&mut self) -> u64 {
        self.0 ^= self.0 >> 12;
        self.0 ^= self.0 << 25;
        self.0 ^= self.0 >> 27;
        self.0.wrapping_mul(0x2545_F491_4F6C_DD1D)
    }

    pub fn word(&mut self) -> u32 {
        (self.long() >> 32) as u32
    }

    /// A number below `end`, which is not 0.
    pub fn below(&mut self, end: usize) -> usize {
        ((u64::from(self.word()) * end as u64) >> 32) as usize
    }

    /// A number from `first` to `last`, both included.
    pub fn between(&mut self, first: usize, last: usize) -> usize {
        first + self.below(last - first + 1)
    }

    pub fn one_in(&mut self, n: usize) -> bool {
        self.below(n) == 0
    }

    pub fn pick<T: Copy>(&mut self, from: &[T]) -> T {
        from[self.below(from.len())]
    }

    /// Two at a time, as bytes are eight at a time: the buffers are long.
    pub fn words(&mut self, count: usize) -> Vec<u32> {
        let mut words = vec![0; count];
        for two in words.chunks_mut(2) {
            let long = self.long();
            two.copy_from_slice(&[long as u32, (long >> 32) as u32][..two.len()]);
        }
        words
    }

    pub fn bytes(&mut self, count: usize) -> Vec<u8> {
        let mut bytes = vec![0; count];
        for eight in bytes.chunks_mut(8) {
            eight.copy_from_slice(&self.long().to_le_bytes()[..eight.len()]);
        }
        bytes
    }
}

/// Words as a datagram has them.
pub fn bytes_of(words: &[u32]) -> Vec<u8> {
    words.iter().flat_map(|word| word.to_le_bytes()).collect()
}
