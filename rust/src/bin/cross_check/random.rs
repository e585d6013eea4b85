//! A small deterministic source of numbers (splitmix64), and the numbers that the rows draw from it.

/// A source of numbers; the same seed gives the same numbers.
pub struct Random(u64);

impl Random {
    /// A source for one piece of work: the run's seed and the piece's own number.
    pub fn new(seed: u64, piece: u64) -> Random {
        let mut random = Random(seed ^ piece.wrapping_mul(0xD134_2543_DE82_EF95));
        random.next();
        random
    }

    /// The next number.
    pub fn next(&mut self) -> u64 {
        self.0 = self.0.wrapping_add(0x9E37_79B9_7F4A_7C15);
        let z = (self.0 ^ (self.0 >> 30)).wrapping_mul(0xBF58_476D_1CE4_E5B9);
        let z = (z ^ (z >> 27)).wrapping_mul(0x94D0_49BB_1331_11EB);
        z ^ (z >> 31)
    }

    /// A number below `limit`, which is above 0.
    pub fn below(&mut self, limit: u64) -> u64 {
        self.next() % limit
    }

    /// A number of places below `limit`, which is above 0.
    pub fn size(&mut self, limit: usize) -> usize {
        self.below(limit as u64) as usize
    }

    /// Puts a list into an order by chance, each as likely as any other.
    pub fn shuffle<T>(&mut self, list: &mut [T]) {
        for last in (1..list.len()).rev() {
            list.swap(last, self.size(last + 1));
        }
    }

    /// True once in so many times.
    pub fn one_in(&mut self, times: u64) -> bool {
        self.below(times) == 0
    }

    /// A count below `limit`, its edges more often than by chance.
    pub fn count(&mut self, limit: u64) -> u64 {
        match self.below(12) {
            0 => self.below(3).min(limit - 1),
            1 => limit - 1 - self.below(3).min(limit - 1),
            _ => self.below(limit),
        }
    }

    /// Any number: below `limit`, at its edge, or far beyond it; among the last those that would pass for a good one if they
    /// were cut to 8, 16 or 32 bits.
    pub fn any(&mut self, limit: u64) -> u64 {
        match self.below(8) {
            0..=2 => self.below(limit),
            3 => (limit + 3).wrapping_sub(self.below(7)),
            4 => (1_u64 << self.below(64))
                .wrapping_sub(2)
                .wrapping_add(self.below(5)),
            5 => self.below(limit) + (1 << [8, 16, 32, 32][self.size(4)]),
            6 if self.one_in(2) => self.below(limit) | self.next() << 32,
            6 => self.next() >> self.below(64),
            _ => u64::MAX - self.below(3),
        }
    }
}
