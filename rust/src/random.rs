//! Random inputs, the same for the same seed. The generators know the rules only well enough to come near their limits;
//! the two sides decide whether an input is accepted.

pub mod banks;
pub mod boots;
pub mod calls;
pub mod forged;
pub mod lists;
pub mod pages;
pub mod transfers;

/// Splitmix64.
#[derive(Clone, Debug)]
pub struct Random(u64);

impl Random {
    /// A generator with this seed.
    pub fn new(seed: u64) -> Random {
        Random(seed)
    }

    /// A random word.
    pub fn word(&mut self) -> u64 {
        self.0 = self.0.wrapping_add(0x9E37_79B9_7F4A_7C15);
        let z = (self.0 ^ (self.0 >> 30)).wrapping_mul(0xBF58_476D_1CE4_E5B9);
        let z = (z ^ (z >> 27)).wrapping_mul(0x94D0_49BB_1331_11EB);
        z ^ (z >> 31)
    }

    /// A number below the bound, which is not 0. The slight bias does no harm here.
    pub fn below(&mut self, bound: u64) -> u64 {
        self.word() % bound
    }

    /// A number from the first to the last, both included.
    pub fn between(&mut self, first: u64, last: u64) -> u64 {
        first + self.below(last - first + 1)
    }

    /// An index into `length` items.
    pub fn index(&mut self, length: usize) -> usize {
        self.below(length as u64) as usize
    }

    /// True once in `n` calls on average.
    pub fn one_in(&mut self, n: u64) -> bool {
        self.below(n) == 0
    }

    /// One of the items.
    pub fn pick<T: Copy>(&mut self, from: &[T]) -> T {
        from[self.index(from.len())]
    }

    /// Puts the items into a random order.
    pub fn shuffle<T>(&mut self, items: &mut [T]) {
        for i in (1..items.len()).rev() {
            items.swap(i, self.index(i + 1));
        }
    }

    /// Fills the slice with random bytes.
    pub fn fill(&mut self, bytes: &mut [u8]) {
        for chunk in bytes.chunks_mut(8) {
            chunk.copy_from_slice(&self.word().to_le_bytes()[..chunk.len()]);
        }
    }

    /// `length` random bytes.
    pub fn bytes(&mut self, length: usize) -> Vec<u8> {
        let mut bytes = vec![0; length];
        self.fill(&mut bytes);
        bytes
    }

    /// A word at or near the limit of some rule, or of any width.
    pub fn edge(&mut self) -> u64 {
        if self.one_in(3) {
            return self.word() >> self.below(64);
        }
        let edge = match self.below(4) {
            0 => self.pick(&[0, 1, 8, 16, 4096]),
            1 => 1 << self.pick(&[12, 16, 31, 32, 40, 51, 52, 53, 63]),
            2 => 4096 * self.below(1 << 40),
            _ => u64::MAX - self.below(4097),
        };
        edge.wrapping_add(self.pick(&[0, 0, 0, 1, u64::MAX, 4096, 4096u64.wrapping_neg()]))
    }
}
