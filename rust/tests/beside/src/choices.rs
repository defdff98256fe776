//! Inputs are made from choices, each a random number.

/// The choices of one input.
pub struct Choices {
    random: Random,
}

impl Choices {
    /// Random choices, always the same for an input with this number.
    pub fn new(seed: u64, input: u64) -> Self {
        Choices { random: Random::new(Random::new(seed).next() ^ input) }
    }

    /// Any number below `end`.
    pub fn below(&mut self, end: usize) -> usize {
        (self.random.next() % end as u64) as usize
    }

    /// Whether one of `times` equal chances came up.
    pub fn once_in(&mut self, times: usize) -> bool {
        self.below(times) == times - 1
    }

    /// Any number up to `most`. Each number of digits is as frequent as any other.
    pub fn up_to(&mut self, most: usize) -> usize {
        let digits = self.below((usize::BITS - most.leading_zeros()) as usize + 1);
        let end = 1_usize.checked_shl(digits as u32).map_or(most, |end| end.min(most));
        self.below(end.saturating_add(1))
    }

    pub fn bytes(&mut self, most: usize) -> Vec<u8> {
        let len = self.up_to(most);
        (0..len).map(|_| self.below(256) as u8).collect()
    }
}

/// The generator splitmix64, which is in the public domain.
pub struct Random(u64);

impl Random {
    pub fn new(seed: u64) -> Self {
        Random(seed)
    }

    pub fn next(&mut self) -> u64 {
        self.0 = self.0.wrapping_add(0x9e37_79b9_7f4a_7c15);
        let mixed = (self.0 ^ (self.0 >> 30)).wrapping_mul(0xbf58_476d_1ce4_e5b9);
        let mixed = (mixed ^ (mixed >> 27)).wrapping_mul(0x94d0_49bb_1331_11eb);
        mixed ^ (mixed >> 31)
    }
}
