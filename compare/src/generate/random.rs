//! A small deterministic random generator.

/// xorshift64*, its state mixed from a seed.
pub struct Random(u64);

impl Random {
    pub fn new(seed: u64) -> Random {
        // splitmix64, so that neighbouring seeds begin far apart; the state is never 0.
        let mut mixed = seed.wrapping_add(0x9e37_79b9_7f4a_7c15);
        mixed = (mixed ^ (mixed >> 30)).wrapping_mul(0xbf58_476d_1ce4_e5b9);
        mixed = (mixed ^ (mixed >> 27)).wrapping_mul(0x94d0_49bb_1331_11eb);
        Random((mixed ^ (mixed >> 31)).max(1))
    }

    pub fn draw(&mut self) -> u64 {
        self.0 ^= self.0 >> 12;
        self.0 ^= self.0 << 25;
        self.0 ^= self.0 >> 27;
        self.0.wrapping_mul(0x2545_f491_4f6c_dd1d)
    }

    /// A 32-bit word.
    pub fn word(&mut self) -> u32 {
        (self.draw() >> 32) as u32
    }

    pub fn byte(&mut self) -> u8 {
        (self.draw() >> 56) as u8
    }

    /// A number below a count that isn't 0.
    pub fn below(&mut self, count: usize) -> usize {
        ((self.draw() >> 16) % count as u64) as usize
    }

    /// A number from low to high, both included.
    pub fn between(&mut self, low: usize, high: usize) -> usize {
        low + self.below(high - low + 1)
    }

    /// A 32-bit number below a count that isn't 0.
    pub fn number(&mut self, count: u32) -> u32 {
        self.below(count as usize) as u32
    }

    pub fn chance(&mut self, percent: usize) -> bool {
        self.below(100) < percent
    }

    pub fn pick<T: Clone>(&mut self, from: &[T]) -> T {
        from[self.below(from.len())].clone()
    }

    /// An index, drawn by the weights.
    pub fn weighted(&mut self, weights: &[usize]) -> usize {
        let mut left = self.below(weights.iter().sum());
        for (index, &weight) in weights.iter().enumerate() {
            if left < weight {
                return index;
            }
            left -= weight;
        }
        unreachable!("below the sum")
    }

    /// A mask of bits below a width of 1 to 64, seldom none or all.
    pub fn mask(&mut self, width: u32) -> u64 {
        let all = crate::reference::sheet::below(width);
        match self.below(10) {
            0 => 0,
            1 => all,
            2 => 1 << self.number(width),
            3 => 1 << (width - 1) | 1,
            4 => self.draw() & self.draw() & all,
            _ => self.draw() & all,
        }
    }

    pub fn shuffle<T>(&mut self, items: &mut [T]) {
        for last in (1..items.len()).rev() {
            items.swap(last, self.below(last + 1));
        }
    }
}
