// Pseudo-random numbers (SplitMix64), so that a seed names a run.

pub struct Random(u64);

impl Random {
    pub fn new(seed: u64) -> Self {
        Self(seed)
    }

    pub fn next(&mut self) -> u64 {
        self.0 = self.0.wrapping_add(0x9e37_79b9_7f4a_7c15);
        let mut word = self.0;
        word = (word ^ (word >> 30)).wrapping_mul(0xbf58_476d_1ce4_e5b9);
        word = (word ^ (word >> 27)).wrapping_mul(0x94d0_49bb_1331_11eb);
        word ^ (word >> 31)
    }

    /// A number below `bound`, which is above 0.
    pub fn below(&mut self, bound: u64) -> u64 {
        ((u128::from(self.next()) * u128::from(bound)) >> 64) as u64
    }

    /// A number from 0 to `most`, both included.
    pub fn upto(&mut self, most: u64) -> u64 {
        if most == u64::MAX { self.next() } else { self.below(most + 1) }
    }

    pub fn one_of<T: Copy>(&mut self, list: &[T]) -> T {
        list[self.below(list.len() as u64) as usize]
    }

    /// Bytes of one of several kinds: even, mostly ones, mostly zeros, or odd so that packed numbers go on.
    pub fn fill(&mut self, bytes: &mut [u8]) {
        let kind = self.below(6);
        for byte in bytes {
            let word = self.next();
            let (a, b, c) = (word as u8, (word >> 8) as u8, (word >> 16) as u8);
            *byte = match kind {
                0 => a | b | c,
                1 => a & b & c,
                2 => a | 1,
                _ => a,
            };
        }
    }
}
