//! A small deterministic generator (SplitMix64): every run compares the same inputs.

pub struct Rng(u64);

impl Rng {
    /// The generator of one group, so that its inputs do not depend on which other groups ran.
    pub fn named(name: &str) -> Self {
        let seed = name
            .bytes()
            .fold(0x6b65_7476_6175_6c6f, |sum: u64, byte| sum.wrapping_mul(0x100_0000_01b3) ^ u64::from(byte));
        Rng(seed)
    }

    pub fn next(&mut self) -> u64 {
        self.0 = self.0.wrapping_add(0x9e37_79b9_7f4a_7c15);
        let mut mixed = self.0;
        mixed = (mixed ^ (mixed >> 30)).wrapping_mul(0xbf58_476d_1ce4_e5b9);
        mixed = (mixed ^ (mixed >> 27)).wrapping_mul(0x94d0_49bb_1331_11eb);
        mixed ^ (mixed >> 31)
    }

    /// A number below `bound`.
    pub fn below(&mut self, bound: usize) -> usize {
        (self.next() % bound as u64) as usize
    }

    /// A number from `low` to `high`, both counted in.
    pub fn between(&mut self, low: usize, high: usize) -> usize {
        low + self.below(high - low + 1)
    }

    /// A number from `low` to `high` whose size is about as often small as large.
    pub fn skewed(&mut self, low: usize, high: usize) -> usize {
        let bits = self.below(usize::BITS as usize - (high - low).leading_zeros() as usize + 1);
        low + self.below(1 << bits).min(high - low)
    }

    /// True once in `times`.
    pub fn once_in(&mut self, times: usize) -> bool {
        self.below(times) == 0
    }

    pub fn pick<T: Clone>(&mut self, from: &[T]) -> T {
        from[self.below(from.len())].clone()
    }

    /// `len` bytes, each from `low` to `high`.
    pub fn bytes_in(&mut self, len: usize, low: u8, high: u8) -> Vec<u8> {
        (0..len).map(|_| self.between(low.into(), high.into()) as u8).collect()
    }

    pub fn bytes(&mut self, len: usize) -> Vec<u8> {
        let mut bytes = Vec::with_capacity(len + 8);
        while bytes.len() < len {
            bytes.extend(self.next().to_le_bytes());
        }
        bytes.truncate(len);
        bytes
    }
}
