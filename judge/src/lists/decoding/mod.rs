//! The vectors of crates/decoding_vectors: what the crates instructions, operands and const_pool read out of chosen code and
//! constants.
//!
//! A line is one vector, 187 bytes with its line feed. There are three kinds, and the lines of a kind stand together:
//!
//! ```text
//! columns                decode                       switch                        pool
//!   0-  5  the kind
//!   7- 14                offset of an instruction     offset of a switch            index in the pool
//!  16- 23                0                            key                           opcode, LDC or LDC2_W
//!  25- 26                number of the refusal, or 0  0                             0A where no constant is found, or 0
//!  28- 35                length in bytes              offset of the branch taken    low word
//!  37- 44                index                        0                             high word, 0 of one word
//!  46- 53                constant                     0                             0
//!  55- 56                how many bytes of code       how many bytes of code        how many entries
//!  58-185                the code                     the code                      the entries, a kind and a word each
//! ```
//!
//! The kind is in lower case, left-aligned. Everything else is upper-case hexadecimal with leading zeros. The last field is
//! left-aligned, with 2 digits for a byte of code and 10 for an entry. After a refusal the three results are 0. An index or a
//! constant that an instruction does not have is 0; a constant is a word, with the operand's sign, and the constant of a switch is
//! its default.

pub mod constants;
pub mod instructions;
pub mod switches;

use super::text::joined;
use crate::decode::decode;
use crate::step::has_constant;
use std::collections::HashSet;

/// A code, and an offset in it or past it.
type At = (Vec<u8>, usize);

/// A refusal's number or 0, and three results.
type Results = (u32, [u32; 3]);

/// The file of vectors. Nothing is tried twice.
pub fn stdin() -> Result<Vec<u8>, String> {
    let mut lines: Vec<String> = vec![];
    for (code, pc) in instructions::all().into_iter().chain(switches::all()) {
        let data = (digits(&code), code.len());
        lines.push(line("decode", [pc as u32, 0], decoded(&code, pc), data));
    }
    for (code, pc, key) in switches::branches() {
        let branch = decode(&code, pc).map(|switch| switch.chosen(&code, key));
        let branch = branch.map_err(|number| format!("a switch is refused with {number}"))?;
        let data = (digits(&code), code.len());
        let results = (0, [branch as u32, 0, 0]);
        lines.push(line("switch", [pc as u32, key as u32], results, data));
    }
    for (pool, index, opcode) in constants::all() {
        let entry = |(kind, word): &(u8, u32)| format!("{kind:02X}{word:08X}");
        let data = (pool.iter().map(entry).collect(), pool.len());
        let results = constant(&pool, index as usize, opcode);
        lines.push(line("pool", [index, opcode.into()], results, data));
    }
    let mut seen = HashSet::new();
    lines.retain(|line| seen.insert(line.clone()));
    Ok(joined(lines))
}

/// A vector; the last part are its bytes or entries as digits, and how many there are.
fn line(kind: &str, at: [u32; 2], results: Results, data: (String, usize)) -> String {
    let ([at, key], (digits, count)) = (at, data);
    let (refusal, [first, second, third]) = results;
    let results = format!("{refusal:02X} {first:08X} {second:08X} {third:08X}");
    format!("{kind:6} {at:08X} {key:08X} {results} {count:02X} {digits:128}")
}

fn digits(code: &[u8]) -> String {
    code.iter().map(|byte| format!("{byte:02X}")).collect()
}

/// Questions 4 and 5.
fn decoded(code: &[u8], pc: usize) -> Results {
    match decode(code, pc) {
        Ok(found) => (
            0,
            [
                found.length as u32,
                found.index as u32,
                found.constant as u32,
            ],
        ),
        Err(number) => (number, [0; 3]),
    }
}

/// Question 9, and the words as they stand.
fn constant(pool: &[(u8, u32)], index: usize, opcode: u8) -> Results {
    let kinds: Vec<u8> = pool.iter().map(|entry| entry.0).collect();
    if !has_constant(&kinds, opcode, index) {
        return (10, [0; 3]);
    }
    let high = if opcode == constants::LDC2_W {
        pool[index + 1].1
    } else {
        0
    };
    (0, [pool[index].1, high, 0])
}
