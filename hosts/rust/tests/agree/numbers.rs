//! Numbers to try the rules on.

/// Numbers that look like chance and are the same on each run (SplitMix64).
pub struct Numbers(pub u64);

impl Numbers {
    pub fn any(&mut self) -> u64 {
        self.0 = self.0.wrapping_add(0x9e37_79b9_7f4a_7c15);
        let mixed = (self.0 ^ (self.0 >> 30)).wrapping_mul(0xbf58_476d_1ce4_e5b9);
        let mixed = (mixed ^ (mixed >> 27)).wrapping_mul(0x94d0_49bb_1331_11eb);
        mixed ^ (mixed >> 31)
    }

    /// From low to high, ends included.
    pub fn within(&mut self, low: u64, high: u64) -> u64 {
        low + self.any() % (high - low + 1)
    }

    /// One chance in so many.
    pub fn once_in(&mut self, many: u64) -> bool {
        self.any() % many == 0
    }

    /// From low to high, small sizes as often as large ones.
    pub fn of_any_size(&mut self, low: u64, high: u64) -> u64 {
        let bits = self.within(0, 63);
        low + (self.any() >> bits) % (high - low + 1)
    }

    /// Mostly in range, often at a bound, at times just or far beyond it.
    pub fn about(&mut self, low: u64, high: u64) -> u64 {
        match self.within(0, 15) {
            0 => low.saturating_sub(1),
            1 => high + 1,
            2 => self.any(),
            3 => low,
            4 => high,
            _ => self.of_any_size(low, high),
        }
    }
}
