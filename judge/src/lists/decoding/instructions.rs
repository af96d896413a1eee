//! Every opcode, with the code's end after it and in it, and every `WIDE`.

use super::switches::{lookup, table};
use super::At;
use crate::lists::scatter::Scatter;
use bytecode::instructions::{of_opcode, widened, Operands};

const IINC: u8 = 132;
const WIDE: u8 = 196;

/// All of them.
pub fn all() -> Vec<At> {
    [
        every_opcode(),
        other_offsets(),
        past_the_end(),
        every_wide(),
    ]
    .concat()
}

/// An instruction with operand bytes that suit it, at offset 0. An opcode outside the core stands alone.
fn fitting(opcode: u8, seed: u64) -> Vec<u8> {
    let mut scatter = Scatter::new(seed * 256 + u64::from(opcode));
    let Some(found) = of_opcode(opcode) else {
        return vec![opcode];
    };
    match found.operands {
        Operands::Wide => [vec![WIDE, IINC], scatter.bytes(4)].concat(),
        Operands::TableSwitch => {
            let offsets = [0; 3].map(|_| scatter.word() as i32);
            table(0, -1, 1, &offsets, scatter.word() as i32)
        }
        Operands::LookupSwitch => {
            let pairs = [-5, 0, 9].map(|key| (key, scatter.word() as i32));
            lookup(0, &pairs, scatter.word() as i32)
        }
        fixed => [vec![opcode], scatter.bytes(fixed.length().unwrap_or(0))].concat(),
    }
}

/// Whether operands lie behind the opcode, as many as it says.
fn is_fixed(opcode: u8) -> bool {
    of_opcode(opcode).is_some_and(|found| found.operands.length().is_some())
}

/// Each opcode at offset 0: with bytes after it, with none, and with one byte less. Then with chosen operand bytes.
fn every_opcode() -> Vec<At> {
    let mut found = vec![];
    for opcode in 0..=255 {
        let code = fitting(opcode, 0);
        let after = Scatter::new(opcode.into()).bytes(8);
        found.push(([&code[..], &after].concat(), 0));
        found.push((code.clone(), 0));
        found.push((code[..code.len() - 1].to_vec(), 0));
        if is_fixed(opcode) {
            for (first, rest) in [
                (0, 0),
                (0x7F, 0xFF),
                (0x80, 0),
                (0xFF, 0x80),
                (0, 0xFF),
                (0xFF, 0xFF),
            ] {
                let all = [opcode, first, rest, rest, rest, rest, rest];
                found.push((all[..code.len()].to_vec(), 0));
            }
        }
    }
    found
}

/// Each opcode of the core after other bytes, with the code's end after it and in it; the switches have their own.
fn other_offsets() -> Vec<At> {
    let mut found = vec![];
    for opcode in (0..=255).filter(|&opcode| is_fixed(opcode) || opcode == WIDE) {
        let mut last = vec![];
        let mut at = 0;
        for seed in [1, 2] {
            let mut scatter = Scatter::new(u64::from(opcode) + seed);
            at = usize::from(opcode % 13) + 5 * seed as usize;
            last = [scatter.bytes(at), fitting(opcode, seed)].concat();
            found.push((last.clone(), at));
            found.push((last[..last.len() - 1].to_vec(), at));
        }
        last.extend([0x10, 0x20]);
        found.push((last, at));
    }
    found
}

/// Offsets at the end of the code and past it, up to those at which a sum of 32 bits comes back to 0.
fn past_the_end() -> Vec<At> {
    let mut scatter = Scatter::new(9);
    let codes = [
        vec![],
        vec![0x00],
        vec![0x10],
        vec![WIDE],
        vec![WIDE, 0x15, 0, 1],
        vec![200, 0, 0, 0, 1],
        vec![0xFF; 3],
        table(0, 0, 0, &[8], DEFAULT),
        lookup(0, &[(1, 2)], DEFAULT),
        scatter.bytes(17),
        scatter.bytes(64),
    ];
    let mut found = vec![];
    for code in codes {
        let n = code.len();
        let near = [n, n + 1, n + 2, n + 4, n + 8];
        let far = [
            0x7F,
            0x80,
            0xFF,
            0x100,
            0xFFFF,
            0x10000,
            0x7FFF_FFFF,
            0x8000_0000,
            0xFFFF_FFF0,
        ];
        let offsets = near.into_iter().chain(far).chain(0xFFFF_FFFB..=0xFFFF_FFFF);
        found.extend(offsets.map(|pc| (code.clone(), pc)));
        if n > 0 {
            found.push((code, n - 1));
        }
    }
    found
}

/// `WIDE` with each second byte: with the rest there, one byte short and without it, at two offsets; and with no second byte.
fn every_wide() -> Vec<At> {
    let mut found = vec![];
    for second in 0..=255 {
        let mut scatter = Scatter::new(second.into());
        let size = if second == IINC { 6 } else { 4 };
        let code = [vec![WIDE, second], scatter.bytes(6)].concat();
        let before = scatter.bytes(1 + usize::from(second % 6));
        let later = |end: usize| ([&before[..], &code[..end]].concat(), before.len());
        found.extend([size, size - 1, 2].map(|end| (code[..end].to_vec(), 0)));
        found.push(later(size));
        if widened(second).is_some() {
            found.extend((2..9).map(later));
            for rest in [
                [0; 4],
                [0xFF; 4],
                [0x7F, 0xFF, 0x7F, 0xFF],
                [0x80, 0, 0x80, 0],
                [0, 0x80, 0, 0x80],
            ] {
                let all = [&[WIDE, second][..], &rest].concat();
                found.push((all[..size].to_vec(), 0));
            }
        }
    }
    for pc in 0..9 {
        found.push(([vec![0xFF; pc], vec![WIDE]].concat(), pc));
    }
    found
}

/// The default of a switch where it does not matter.
pub const DEFAULT: i32 = 0x0102_0304;
