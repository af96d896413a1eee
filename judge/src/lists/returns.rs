//! The returns of crates/step_traces: each return opcode in methods of each return type, and ints at the
//! limits of what the small types hold.

use super::methods::{Lent, Sample};
use super::text::code;

/// A return opcode: the words on its stack, the return types that it suits, and how it ends there.
type Return = (&'static str, &'static [u32], &'static str, &'static str);

const RETURNS: [Return; 6] = [
    ("ireturn", &[1], "BCISZ", "return int 00000001"),
    (
        "lreturn",
        &[0x89AB_CDEF, 0xFFFF_FF80],
        "J",
        "return long FFFFFF8089ABCDEF",
    ),
    ("freturn", &[0xFFA1_2380], "F", "return float FFA12380"),
    (
        "dreturn",
        &[0x0000_8080, 0x7FF0_0000],
        "D",
        "return double 7FF0000000008080",
    ),
    ("areturn", &[0x0001_8080], "L", "return ref 00018080"),
    ("return", &[], "V", "return void"),
];

/// The return types, and numbers that are none, among them the small letters, `[`, and a letter with another bit or in
/// another byte.
const TYPES: &str = "BCDFIJLSVZ";
#[rustfmt::skip]
const NO_TYPES: [u32; 18] = [
    0, 1, 0x41, 0x43 ^ 0x80, 0x5B, 0x62, 0x63, 0x64, 0x66, 0x69, 0x6A, 0x6C, 0x76, 0x142, 0x4A00, 0x5600_0000, 0x8000_0053, 0xFFFF_FFFF,
];

/// An int, and what a method that returns a boolean, a byte, a char or a short makes of it.
#[rustfmt::skip]
const INTS: [(u32, [u32; 4]); 30] = [
    (0x0000_0000, [0, 0x0000_0000, 0x0000, 0x0000_0000]), (0x0000_0001, [1, 0x0000_0001, 0x0001, 0x0000_0001]),
    (0x0000_0002, [0, 0x0000_0002, 0x0002, 0x0000_0002]), (0x0000_0003, [1, 0x0000_0003, 0x0003, 0x0000_0003]),
    (0x0000_007F, [1, 0x0000_007F, 0x007F, 0x0000_007F]), (0x0000_0080, [0, 0xFFFF_FF80, 0x0080, 0x0000_0080]),
    (0x0000_00C8, [0, 0xFFFF_FFC8, 0x00C8, 0x0000_00C8]), (0x0000_00FF, [1, 0xFFFF_FFFF, 0x00FF, 0x0000_00FF]),
    (0x0000_0100, [0, 0x0000_0000, 0x0100, 0x0000_0100]), (0x0000_0101, [1, 0x0000_0001, 0x0101, 0x0000_0101]),
    (0x0000_7FFF, [1, 0xFFFF_FFFF, 0x7FFF, 0x0000_7FFF]), (0x0000_8000, [0, 0x0000_0000, 0x8000, 0xFFFF_8000]),
    (0x0000_8080, [0, 0xFFFF_FF80, 0x8080, 0xFFFF_8080]), (0x0000_FFFF, [1, 0xFFFF_FFFF, 0xFFFF, 0xFFFF_FFFF]),
    (0x0001_0000, [0, 0x0000_0000, 0x0000, 0x0000_0000]), (0x0001_0001, [1, 0x0000_0001, 0x0001, 0x0000_0001]),
    (0x7FFF_FFFF, [1, 0xFFFF_FFFF, 0xFFFF, 0xFFFF_FFFF]), (0x8000_0000, [0, 0x0000_0000, 0x0000, 0x0000_0000]),
    (0x1234_5678, [0, 0x0000_0078, 0x5678, 0x0000_5678]), (0x89AB_CDEF, [1, 0xFFFF_FFEF, 0xCDEF, 0xFFFF_CDEF]),
    (0xFFFE_FFFF, [1, 0xFFFF_FFFF, 0xFFFF, 0xFFFF_FFFF]), (0xFFFF_0000, [0, 0x0000_0000, 0x0000, 0x0000_0000]),
    (0xFFFF_7FFF, [1, 0xFFFF_FFFF, 0x7FFF, 0x0000_7FFF]), (0xFFFF_8000, [0, 0x0000_0000, 0x8000, 0xFFFF_8000]),
    (0xFFFF_FEFF, [1, 0xFFFF_FFFF, 0xFEFF, 0xFFFF_FEFF]), (0xFFFF_FF00, [0, 0x0000_0000, 0xFF00, 0xFFFF_FF00]),
    (0xFFFF_FF7F, [1, 0x0000_007F, 0xFF7F, 0xFFFF_FF7F]), (0xFFFF_FF80, [0, 0xFFFF_FF80, 0xFF80, 0xFFFF_FF80]),
    (0xFFFF_FFFE, [0, 0xFFFF_FFFE, 0xFFFE, 0xFFFF_FFFE]), (0xFFFF_FFFF, [1, 0xFFFF_FFFF, 0xFFFF, 0xFFFF_FFFF]),
];

/// All of them.
pub fn samples() -> Result<Vec<Sample>, String> {
    let mut samples = vec![];
    for returns in RETURNS {
        for letter in TYPES.chars() {
            let end = if returns.2.contains(letter) {
                returns.3
            } else {
                "refused 32"
            };
            samples.push(of_type(returns, &letter.to_string(), letter.into(), end)?);
        }
        for number in NO_TYPES {
            samples.push(of_type(returns, &format!("{number:X}"), number, returns.3)?);
        }
    }
    for (int, given) in INTS {
        for (letter, given) in ['Z', 'B', 'C', 'S'].into_iter().zip(given) {
            samples.push(narrowed(int, letter, given)?);
        }
        samples.push(narrowed(int, 'I', int)?);
    }
    Ok(samples)
}

/// An ordinary step, which keeps the type, and a return.
fn of_type(returns: Return, name: &str, number: u32, end: &str) -> Result<Sample, String> {
    let (opcode, stack, ..) = returns;
    let lent = Lent {
        max_stack: 2,
        stack: stack.iter().copied().map(Some).collect(),
        spare: 1,
        ..Lent::default()
    };
    let sample = lent.sample(
        &format!("{opcode}_of_type_{name}"),
        end,
        code(&format!("nop; {opcode}"))?,
    );
    Ok(typed(sample, number))
}

/// An int that a method gives back.
fn narrowed(int: u32, letter: char, given: u32) -> Result<Sample, String> {
    let lent = Lent {
        max_stack: 1,
        locals: vec![Some(int)],
        ..Lent::default()
    };
    let sample = lent.sample(
        &format!("{int:08X}_in_{letter}"),
        &format!("return int {given:08X}"),
        code("iload_0; ireturn")?,
    );
    Ok(typed(sample, letter.into()))
}

fn typed(mut sample: Sample, return_type: u32) -> Sample {
    sample.state.return_type = return_type;
    sample
}
