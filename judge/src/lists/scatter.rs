//! Bits without a pattern, the same at each run, and the checksum of the lists.

/// A linear congruential generator, of which the upper half is used.
pub struct Scatter(u64);

impl Scatter {
    /// Bits from a number.
    pub fn new(seed: u64) -> Scatter {
        Scatter(seed)
    }

    /// Other bits for each text.
    pub fn of(text: &str) -> Scatter {
        Scatter(checksum(text.bytes().map(u32::from)).into())
    }

    fn next(&mut self) -> u64 {
        self.0 = self.0.wrapping_mul(6_364_136_223_846_793_005);
        self.0 = self.0.wrapping_add(1_442_695_040_888_963_407);
        self.0
    }

    /// A number of so many bits, at most 32.
    pub fn bits(&mut self, width: u32) -> u32 {
        let mask = (1 << width) - 1;
        (self.next() >> 32 & mask) as u32
    }

    /// A byte, the topmost.
    pub fn byte(&mut self) -> u8 {
        (self.next() >> 56) as u8
    }

    /// So many bytes.
    pub fn bytes(&mut self, count: usize) -> Vec<u8> {
        (0..count).map(|_| self.byte()).collect()
    }

    /// A word of four bytes.
    pub fn word(&mut self) -> u32 {
        (0..4).fold(0, |word, _| word << 8 | u32::from(self.byte()))
    }
}

/// 0 at first, and for each element x in order 31 times the sum, plus x, plus 1, modulo 2^32.
pub fn checksum(elements: impl IntoIterator<Item = u32>) -> u32 {
    let add = |sum: u32, element: u32| sum.wrapping_mul(31).wrapping_add(element).wrapping_add(1);
    elements.into_iter().fold(0, add)
}
