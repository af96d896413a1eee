//! Random numbers that are often at a limit.

use super::random::Random;

/// Words at which something changes: sizes of 16 bits, signs, and the corners of floats.
const CORNERS: [u32; 32] = [
    0,
    1,
    2,
    5,
    6,
    7,
    9,
    10,
    11,
    31,
    32,
    33,
    63,
    64,
    255,
    256,
    65_534,
    65_535,
    65_536,
    65_537,
    0x0100_0001,
    0x0100_0003,
    0x3F80_0000,
    0x7F7F_FFFF,
    0x7F80_0000,
    0x7FA0_0001,
    0x7FC0_0000,
    0x7FFF_FFFF,
    0x8000_0000,
    0x8000_0001,
    0xFFFF_FFFE,
    0xFFFF_FFFF,
];

/// Longs and doubles at which something changes, as bits.
const PAIRS: [u64; 20] = [
    0x0000_0000_0000_0000,
    0x0000_0000_0000_0001,
    0x0000_0000_FFFF_FFFF,
    0x0000_0001_0000_0000,
    0x000F_FFFF_FFFF_FFFF,
    0x0010_0000_0000_0000,
    0x0020_0000_0000_0001,
    0x0020_0000_0000_0003,
    0x3FF0_0000_0000_0000,
    0x3FF0_0000_1000_0000,
    // Near halfway between two floats: a long that is rounded twice goes wrong.
    0x4000_0040_0000_0001,
    0xBFFF_FFBF_FFFF_FFFF,
    0x47EF_FFFF_EFFF_FFFF,
    0x47EF_FFFF_F000_0000,
    0x7FEF_FFFF_FFFF_FFFF,
    0x7FF0_0000_0000_0000,
    0x7FF8_0000_0000_0000,
    0x7FFF_FFFF_FFFF_FFFF,
    0x8000_0000_0000_0000,
    0xFFFF_FFFF_FFFF_FFFF,
];

/// Exponents of a double, as they are stored: its own ends, those of a float and of its subnormal
/// numbers, 1, and those of an int and of a long.
const EXPONENTS: [u64; 12] = [
    0, 0x35E, 0x368, 0x380, 0x3FE, 0x416, 0x41D, 0x433, 0x43D, 0x47D, 0x7FB, 0x7FF,
];

/// Counts whose tenfold, or fortyfold in bytes, wraps, and others that no log reaches.
const COUNTS: [u64; 11] = [
    0x1999_9999,
    0x1999_999A,
    0xFFFF_FFFF,
    0x1_0000_0000,
    0x0666_6666_6666_6667,
    0x1999_9999_9999_9999,
    0x1999_9999_9999_999A,
    0x1999_9999_9999_999B,
    0x3333_3333_3333_3334,
    0x8000_0000_0000_0000,
    0xFFFF_FFFF_FFFF_FFFF,
];

impl Random {
    /// A row of its own for each case, so that a case is made again from its number alone.
    pub fn of_case(seed: u64, case: u64) -> Random {
        let first = Random::new(seed).next();
        Random::new(first ^ case.wrapping_mul(0xD134_2543_DE82_EF95))
    }

    /// A number at a limit, just before it or just after it.
    pub fn around(&mut self, limit: usize) -> usize {
        (limit + self.below(3)).saturating_sub(1)
    }

    /// A word of any value, often a corner, a small number, near a power of two, or a float that is.
    pub fn word(&mut self) -> u32 {
        match self.below(7) {
            0 | 1 => self.pick(&CORNERS),
            2 => self.below(20) as u32,
            3 => (1_u32 << self.below(32))
                .wrapping_add(self.below(3) as u32)
                .wrapping_sub(1),
            4 => (self.below(20) as u32).wrapping_neg(),
            5 => (f64::from_bits(self.double()) as f32).to_bits(),
            _ => self.next() as u32,
        }
    }

    /// A double near an exponent where something changes, with few bits set, few not set, or any.
    fn double(&mut self) -> u64 {
        let exponent = (self.pick(&EXPONENTS) + self.below(4) as u64) & 0x7FF;
        let bit = 1_u64 << self.below(52);
        let any = self.next();
        let fraction = self.pick(&[0, bit, bit - 1, bit | 1, !bit, any, any << 29]);
        (any >> 63 << 63) | exponent << 52 | fraction << 12 >> 12
    }

    /// The bits of a long or of a double.
    pub fn pair(&mut self) -> u64 {
        let any = self.next();
        match self.below(4) {
            0 => self.pick(&PAIRS) ^ (any >> 63 << 63),
            1 => self.double(),
            2 => any >> self.below(64),
            _ => (any >> self.below(64)).wrapping_neg(),
        }
    }

    /// Words of any values, among them some pairs and some that repeat what stands before them.
    pub fn words(&mut self, length: usize) -> Vec<u32> {
        let mut words = Vec::with_capacity(length + 2);
        while words.len() < length {
            let last = words.len();
            match self.below(8) {
                0 => {
                    let pair = self.pair();
                    words.extend([pair as u32, (pair >> 32) as u32]);
                }
                1 if last >= 2 => words.extend_from_within(last - 2..),
                2 if last >= 1 => words.push(words[last - 1]),
                3 => words.push(0),
                _ => words.push(self.word()),
            }
        }
        words.truncate(length);
        words
    }

    pub fn bytes(&mut self, length: usize) -> Vec<u8> {
        (0..length).map(|_| self.next() as u8).collect()
    }

    /// A count of log entries, mostly one that a log of this length has or nearly has.
    pub fn count(&mut self, log: usize) -> u64 {
        match self.below(16) {
            0 => {
                let (known, any) = (self.pick(&COUNTS), self.next());
                self.pick(&[known, known, any])
            }
            1 | 2 => self.around(log / 10) as u64,
            _ => self.below(log / 10 + 1) as u64,
        }
    }
}
