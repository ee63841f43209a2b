//! Random choices that a seed fixes.

/// A stream of choices.
pub struct Random(u64);

impl Random {
    /// Streams of one seed are independent.
    pub fn new(seed: u64, stream: u64) -> Random {
        let mut mixed = Random(seed);
        let start = mixed.next() ^ stream.wrapping_mul(0xD134_2543_DE82_EF95);
        Random(start)
    }

    pub fn next(&mut self) -> u64 {
        self.0 = self.0.wrapping_add(0x9E37_79B9_7F4A_7C15);
        let mut mixed = self.0;
        mixed = (mixed ^ (mixed >> 30)).wrapping_mul(0xBF58_476D_1CE4_E5B9);
        mixed = (mixed ^ (mixed >> 27)).wrapping_mul(0x94D0_49BB_1331_11EB);
        mixed ^ (mixed >> 31)
    }

    pub fn below(&mut self, limit: usize) -> usize {
        ((u128::from(self.next()) * limit as u128) >> 64) as usize
    }

    /// A number from `low` to `high`, both included.
    pub fn between(&mut self, low: usize, high: usize) -> usize {
        low + self.below(high - low + 1)
    }

    pub fn percent(&mut self, chance: usize) -> bool {
        self.below(100) < chance
    }

    pub fn byte(&mut self) -> u8 {
        self.next() as u8
    }

    pub fn pick<T: Copy>(&mut self, list: &[T]) -> T {
        list[self.below(list.len())]
    }

    /// One of the cases of a list that are as asked.
    pub fn pick_where<T: Copy>(&mut self, list: &[T], wanted: fn(T) -> bool) -> T {
        let cases: Vec<T> = list.iter().copied().filter(|&case| wanted(case)).collect();
        self.pick(&cases)
    }

    /// A line's value: small ones and the extremes often.
    pub fn value(&mut self) -> u64 {
        match self.below(4) {
            0 => self.below(4) as u64,
            1 => self.pick(&[255, 256, 1 << 32, 1 << 63, u64::MAX]),
            _ => self.next(),
        }
    }

    /// A value that is not 0.
    pub fn nonzero(&mut self) -> u64 {
        self.value().max(1)
    }
}
