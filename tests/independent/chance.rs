//! A small generator of numbers that depend on the seed alone.

pub struct Chance {
    state: u64,
}

impl Chance {
    pub fn new(seed: u64) -> Chance {
        Chance { state: seed }
    }

    /// The next number of 64 bits.
    pub fn number(&mut self) -> u64 {
        self.state = self.state.wrapping_add(0x9E37_79B9_7F4A_7C15);
        let mut mixed = self.state;
        mixed = (mixed ^ (mixed >> 30)).wrapping_mul(0xBF58_476D_1CE4_E5B9);
        mixed = (mixed ^ (mixed >> 27)).wrapping_mul(0x94D0_49BB_1331_11EB);
        mixed ^ (mixed >> 31)
    }

    /// A number below the bound; 0 where the bound is 0.
    pub fn below(&mut self, bound: u64) -> u64 {
        self.number() % bound.max(1)
    }

    /// A number from low to high, both included.
    pub fn between(&mut self, low: u64, high: u64) -> u64 {
        low + self.below(high.saturating_sub(low) + 1)
    }

    /// True once in that many times; never for 0.
    pub fn one_in(&mut self, times: u64) -> bool {
        times > 0 && self.below(times) == 0
    }

    /// An index below the length.
    pub fn index(&mut self, length: usize) -> usize {
        self.below(length as u64) as usize
    }

    pub fn pick<T: Copy>(&mut self, from: &[T]) -> T {
        from[self.index(from.len())]
    }

    /// A number of 32 bits, often small or close to a power of two.
    pub fn field(&mut self) -> u64 {
        match self.below(5) {
            0 => self.below(4),
            1 => self.below(100),
            2 => self.pick(&[65_534, 65_535, 65_536, 0x7FFF_FFFF, 0x8000_0000]),
            3 => u64::from(u32::MAX) - self.below(3),
            _ => self.number() >> 32,
        }
    }

    /// A number near the given one, of 32 bits.
    pub fn near(&mut self, number: u64) -> u64 {
        match self.below(4) {
            0 => number.saturating_sub(1),
            1 => (number + 1).min(u64::from(u32::MAX)),
            2 => number.saturating_sub(self.below(20)),
            _ => (number + self.below(20)).min(u64::from(u32::MAX)),
        }
    }
}
