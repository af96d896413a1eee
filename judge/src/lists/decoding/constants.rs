//! Constants of the pool: each kind at each place, indices at and past the end, and bits.

use crate::lists::scatter::Scatter;

/// The opcode of the vectors of one word.
pub const LDC: u8 = 0x12;
/// The opcode of the vectors of two words.
pub const LDC2_W: u8 = 0x14;

/// A pool, an index and an opcode.
type Constant = (Vec<(u8, u32)>, u32, u8);

/// A NaN of each sign with its payload, and limits.
const PATTERNS: [u32; 7] = [
    0x7FC0_0001,
    0xFF80_0001,
    0x7FF8_0000,
    0xFFFF_FFFF,
    0x8000_0000,
    0,
    1,
];

#[rustfmt::skip]
const INDICES: [u32; 16] = [
    0, 1, 6, 10, 11, 12, 13, 0xFF, 0x100, 0xFFFE, 0xFFFF, 0x10000, 0x7FFF_FFFF, 0x8000_0000, 0xFFFF_FFFE, 0xFFFF_FFFF,
];

/// All of them.
pub fn all() -> Vec<Constant> {
    let (mut found, mut scatter) = (vec![], Scatter::new(5));
    for (opcode, kinds) in [(LDC, [3, 4]), (LDC2_W, [5, 6])] {
        kinds_at_places(&mut found, &mut scatter, opcode, kinds);
        for kind in kinds {
            indices_and_bits(&mut found, &mut scatter, opcode, kind);
        }
    }
    found
}

/// Each kind at an index in the middle, at the first and at the last, and right ones before each kind.
fn kinds_at_places(found: &mut Vec<Constant>, scatter: &mut Scatter, opcode: u8, right: [u8; 2]) {
    for kind in (0..13).chain([0x80 + right[0], 0xFF]) {
        let one = [(kind, scatter.word())];
        let two = [(0, scatter.word()), (0, scatter.word())];
        found.push(([&two[..], &one, &two].concat(), 2, opcode));
        found.push(([&one[..], &two].concat(), 0, opcode));
        found.push(([&two[..], &one].concat(), 2, opcode));
        found.push((one.to_vec(), 0, opcode));
        for right in right {
            found.push((vec![two[0], (right, scatter.word()), one[0]], 1, opcode));
        }
    }
}

/// A right kind at indices in the pool and past it, and with bits that must stay as they are.
fn indices_and_bits(found: &mut Vec<Constant>, scatter: &mut Scatter, opcode: u8, kind: u8) {
    let pool = [(); 12].map(|()| (kind, scatter.word()));
    found.extend(INDICES.map(|index| (pool.to_vec(), index, opcode)));
    for length in 0..4 {
        found.extend((0..4).map(|index| (pool[..length].to_vec(), index, opcode)));
    }
    for low in PATTERNS {
        found.extend(PATTERNS.map(|high| (vec![(kind, low), (0, high), (kind, low)], 0, opcode)));
    }
    for low in &PATTERNS[..2] {
        found.extend(PATTERNS.map(|high| (vec![(kind, *low), (kind, high)], 1, opcode)));
    }
}
