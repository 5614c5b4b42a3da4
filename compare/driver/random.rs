//! A small random generator that gives the same numbers everywhere (splitmix64).

/// The generator; its number is the seed.
pub struct Random(pub u64);

/// Numbers with a rule of their own in some operation.
pub const SPECIAL: [f32; 14] = [
    f32::NAN,
    f32::INFINITY,
    f32::NEG_INFINITY,
    0.0,
    -0.0,
    1.0,
    -1.0,
    1e-45,
    -1e-45,
    f32::MIN_POSITIVE,
    f32::MAX,
    f32::MIN,
    1000.0,
    -1000.0,
];

impl Random {
    /// The next 64 bits.
    fn next(&mut self) -> u64 {
        self.0 = self.0.wrapping_add(0x9e37_79b9_7f4a_7c15);
        let z = self.0;
        let z = (z ^ (z >> 30)).wrapping_mul(0xbf58_476d_1ce4_e5b9);
        let z = (z ^ (z >> 27)).wrapping_mul(0x94d0_49bb_1331_11eb);
        z ^ (z >> 31)
    }

    /// The next 32 bits.
    pub fn bits(&mut self) -> u32 {
        (self.next() >> 32) as u32
    }

    /// A whole number below n.
    pub fn below(&mut self, n: usize) -> usize {
        ((u128::from(self.next()) * n as u128) >> 64) as usize
    }

    /// One of these things.
    pub fn pick<T: Copy>(&mut self, things: &[T]) -> T {
        things[self.below(things.len())]
    }

    /// A number from low to high.
    pub fn between(&mut self, low: f32, high: f32) -> f32 {
        low + (high - low) * ((self.bits() >> 8) as f32 / (1 << 24) as f32)
    }

    /// The number or one at most three steps of its bits away.
    pub fn near(&mut self, v: f32) -> f32 {
        f32::from_bits(
            v.to_bits()
                .wrapping_add(self.below(7) as u32)
                .wrapping_sub(3),
        )
    }

    /// A number from low to high, any bit pattern or a special number.
    pub fn mixed(&mut self, low: f32, high: f32) -> f32 {
        match self.below(4) {
            0 => f32::from_bits(self.bits()),
            1 => self.pick(&SPECIAL),
            _ => self.between(low, high),
        }
    }

    /// Three numbers, mostly each from its low to its high, sometimes of any kind.
    pub fn triple(&mut self, ranges: [(f32, f32); 3]) -> [f32; 3] {
        let kind = self.below(8);
        ranges.map(|(low, high)| match kind {
            0 => f32::from_bits(self.bits()),
            1 => self.mixed(low, high),
            _ => self.between(low, high),
        })
    }
}
