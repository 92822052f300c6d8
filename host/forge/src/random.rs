//! Numbers that look random and are the same in each run with the same seed.

use crate::LIMIT;

/// The page sizes allowed.
pub const PAGE_SIZES: [u64; 9] = [16, 32, 64, 128, 256, 512, 1_024, 2_048, 4_096];

/// Numbers at which something may turn, whatever they stand for.
pub const EXTREMES: [u64; 24] = [
    0,
    1,
    39,
    40,
    59,
    60,
    255,
    256,
    1_023,
    1_024,
    1_025,
    4_096,
    4_097,
    LIMIT - 1,
    LIMIT,
    LIMIT + 1,
    (1 << 32) - 1,
    1 << 32,
    1 << 61,
    1 << 62,
    1 << 63,
    u64::MAX - 4_095,
    u64::MAX - 1,
    u64::MAX,
];

pub struct Random(u64);

impl Random {
    /// A start for each family, number and seed.
    pub fn seeded(parts: &[u64]) -> Random {
        let mut random = Random(0);
        for part in parts {
            random.0 ^= *part;
            random.0 = random.number();
        }
        random
    }

    pub fn number(&mut self) -> u64 {
        self.0 = self.0.wrapping_add(0x9E37_79B9_7F4A_7C15);
        let mut mixed = self.0;
        mixed = (mixed ^ mixed >> 30).wrapping_mul(0xBF58_476D_1CE4_E5B9);
        mixed = (mixed ^ mixed >> 27).wrapping_mul(0x94D0_49BB_1331_11EB);
        mixed ^ mixed >> 31
    }

    /// A number below the bound; 0 where the bound is 0.
    pub fn below(&mut self, bound: u64) -> u64 {
        match bound {
            0 => 0,
            _ => ((u128::from(self.number()) * u128::from(bound)) >> 64) as u64,
        }
    }

    /// A number from the least to the most, both included.
    pub fn between(&mut self, least: u64, most: u64) -> u64 {
        least + self.below(most - least + 1)
    }

    pub fn one_in(&mut self, many: u64) -> bool {
        self.below(many) == 0
    }

    pub fn pick<T: Copy>(&mut self, from: &[T]) -> T {
        from[self.below(from.len() as u64) as usize]
    }

    pub fn shuffle<T>(&mut self, things: &mut [T]) {
        for last in (1..things.len()).rev() {
            things.swap(last, self.below(last as u64 + 1) as usize);
        }
    }

    pub fn fill(&mut self, bytes: &mut [u8]) {
        for chunk in bytes.chunks_mut(8) {
            let number = self.number().to_le_bytes();
            chunk.copy_from_slice(&number[..chunk.len()]);
        }
    }

    pub fn bytes(&mut self, length: usize) -> Vec<u8> {
        let mut bytes = vec![0; length];
        self.fill(&mut bytes);
        bytes
    }

    /// Each page size allowed, the small ones more often: more of them fit into a short buffer.
    pub fn page_size(&mut self) -> u64 {
        match self.below(3) {
            0 => self.pick(&PAGE_SIZES),
            1 => self.pick(&PAGE_SIZES[..4]),
            _ => 16,
        }
    }

    /// A number at which something may turn, or one next to another.
    pub fn extreme(&mut self, near: u64) -> u64 {
        match self.below(4) {
            0 => near.wrapping_add(self.below(5)).wrapping_sub(2),
            1 => near.wrapping_add(self.pick(&[16, 20, 24, 1 << 32, 1 << 61, 1 << 62, 1 << 63])),
            2 => self.number() >> self.below(64),
            _ => self.pick(&EXTREMES),
        }
    }
}
