//! A small generator of pseudo-random numbers that gives the same numbers everywhere.

/// SplitMix64 (Steele, Lea, Flood 2014).
pub struct Rng {
    state: u64,
}

impl Rng {
    /// The generator of the `index`-th case under `seed`; each case has its own, so that any one
    /// can be made without the ones before it.
    pub fn for_case(seed: u64, index: u64) -> Self {
        let mut seeded = Self { state: seed };
        let start = seeded.bits();
        Self {
            state: start.wrapping_add(index.wrapping_mul(0xd134_2543_de82_ef95)),
        }
    }

    /// The next 64 bits.
    pub fn bits(&mut self) -> u64 {
        self.state = self.state.wrapping_add(0x9e37_79b9_7f4a_7c15);
        let mut z = self.state;
        z = (z ^ (z >> 30)).wrapping_mul(0xbf58_476d_1ce4_e5b9);
        z = (z ^ (z >> 27)).wrapping_mul(0x94d0_49bb_1331_11eb);
        z ^ (z >> 31)
    }

    /// A number below `bound`, which is not 0.
    pub fn below(&mut self, bound: u32) -> u32 {
        (self.bits() % u64::from(bound)) as u32
    }

    /// A number from `low` to `high`, both included.
    pub fn range(&mut self, low: u32, high: u32) -> u32 {
        low + self.below(high - low + 1)
    }

    /// True in `percent` of a hundred draws.
    pub fn percent(&mut self, percent: u32) -> bool {
        self.below(100) < percent
    }

    /// One of `choices`.
    pub fn pick<T: Copy>(&mut self, choices: &[T]) -> T {
        choices[self.below(choices.len() as u32) as usize]
    }
}
