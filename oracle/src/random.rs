//! Random numbers for cases: splitmix64, so that a seed gives the same cases on every machine.

pub struct Random {
    state: u64,
    /// One in so many of the cases that are compared in bulk is drawn.
    part: usize,
}

impl Random {
    /// A generator that starts from a seed.
    pub fn new(seed: u64) -> Self {
        Self { state: seed, part: 1 }
    }

    /// A generator of its own for a name, so that a new function leaves the others' cases as they were.
    pub fn named(seed: u64, part: usize, name: &str) -> Self {
        let mut random = Self { state: seed, part };
        for byte in name.bytes() {
            random.state ^= u64::from(byte);
            random.state = random.next();
        }
        random
    }

    /// How many cases are drawn where so many would be.
    pub fn part_of(&self, cases: usize) -> usize {
        cases / self.part
    }

    /// The next 64 random bits.
    pub fn next(&mut self) -> u64 {
        self.state = self.state.wrapping_add(0x9E37_79B9_7F4A_7C15);
        let mut word = self.state;
        word = (word ^ (word >> 30)).wrapping_mul(0xBF58_476D_1CE4_E5B9);
        word = (word ^ (word >> 27)).wrapping_mul(0x94D0_49BB_1331_11EB);
        word ^ (word >> 31)
    }

    /// A number from 0 to limit - 1; limit is at least 1.
    pub fn below(&mut self, limit: usize) -> usize {
        (self.next() % limit as u64) as usize
    }

    /// A number from low to high, both included.
    pub fn between(&mut self, low: usize, high: usize) -> usize {
        low + self.below(high - low + 1)
    }

    /// So many random bytes.
    pub fn bytes(&mut self, length: usize) -> Vec<u8> {
        (0..length).map(|_| self.next() as u8).collect()
    }
}
