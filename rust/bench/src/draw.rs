//! Random numbers, the same in every run.

/// A small generator (xorshift).
pub struct Draw(u64);

impl Draw {
    pub fn new() -> Draw {
        Draw(0x9E37_79B9_7F4A_7C15)
    }

    /// A number from `low` to `high`.
    pub fn between(&mut self, low: u32, high: u32) -> u32 {
        self.0 ^= self.0 << 13;
        self.0 ^= self.0 >> 7;
        self.0 ^= self.0 << 17;
        low + ((self.0 >> 32) % u64::from(high - low + 1)) as u32
    }
}
