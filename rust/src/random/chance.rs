//! Random numbers that a seed repeats.

/// The seed where none is named.
pub const SEED: u64 = 44_780;

/// xorshift64.
pub struct Chance(u64);

impl Chance {
    /// Each text or call of a seed has its own generator, so that number k does not
    /// depend on those before it.
    pub fn new(seed: u64, number: u64) -> Chance {
        let mut start = seed
            .wrapping_mul(0x9E37_79B9_7F4A_7C15)
            .wrapping_add(number);
        start = (start ^ (start >> 30)).wrapping_mul(0xBF58_476D_1CE4_E5B9);
        start = (start ^ (start >> 27)).wrapping_mul(0x94D0_49BB_1331_11EB);
        start ^= start >> 31;
        // xorshift must not start from 0.
        Chance(if start == 0 { 1 } else { start })
    }

    pub fn bits(&mut self) -> u64 {
        self.0 ^= self.0 << 13;
        self.0 ^= self.0 >> 7;
        self.0 ^= self.0 << 17;
        self.0
    }

    /// A number below the bound.
    pub fn below(&mut self, bound: u64) -> u64 {
        (self.bits() >> 16) % bound
    }

    pub fn between(&mut self, low: u64, high: u64) -> u64 {
        low + self.below(high - low + 1)
    }

    /// True in `percent` of a hundred.
    pub fn percent(&mut self, percent: u64) -> bool {
        self.below(100) < percent
    }

    pub fn byte(&mut self) -> u8 {
        self.below(256) as u8
    }

    pub fn bytes(&mut self, length: usize) -> Vec<u8> {
        (0..length).map(|_| self.byte()).collect()
    }

    /// A place in a slice of this length, which is not empty.
    pub fn index(&mut self, length: usize) -> usize {
        self.below(length as u64) as usize
    }

    pub fn pick<T: Copy>(&mut self, from: &[T]) -> T {
        from[self.index(from.len())]
    }
}
