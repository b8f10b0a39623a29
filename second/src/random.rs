//! A small random generator of our own: the same seed gives the same cases on
//! every machine.

/// xorshift64* with a scrambled seed, so that near seeds go apart.
pub struct Random(u64);

impl Random {
    pub fn seeded(seed: u64) -> Random {
        Random(seed.wrapping_mul(0x9E37_79B9_7F4A_7C15) | 1)
    }

    pub fn number(&mut self) -> u64 {
        self.0 ^= self.0 >> 12;
        self.0 ^= self.0 << 25;
        self.0 ^= self.0 >> 27;
        self.0.wrapping_mul(0x2545_F491_4F6C_DD1D) >> 16
    }

    /// 0 to `most`.
    pub fn up_to(&mut self, most: u64) -> u64 {
        self.number() % (most + 1)
    }

    pub fn one_in(&mut self, many: u64) -> bool {
        self.up_to(many - 1) == 0
    }

    pub fn bytes(&mut self, length: usize) -> Vec<u8> {
        (0..length).map(|_| self.up_to(255) as u8).collect()
    }
}
