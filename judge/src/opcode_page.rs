//! The page of opcodes, as docs/RULES.md, 'The page of opcodes', has it.

use crate::shapes::places;
use bytecode::instructions::{of_opcode, Operands};

/// A line for each opcode, from 0 to 255.
pub fn page() -> String {
    (0..=255).map(|opcode| line(opcode) + "\n").collect()
}

/// Opcode, length in bytes, places popped and places pushed.
pub fn line(opcode: u8) -> String {
    let length = of_opcode(opcode).map_or(255, |instruction| length(instruction.operands));
    let (popped, pushed) = places(opcode).unwrap_or((0, 0));
    format!("{opcode} {length} {popped} {pushed}")
}

fn length(operands: Operands) -> usize {
    match operands {
        Operands::TableSwitch | Operands::LookupSwitch => 0,
        Operands::Wide => 254,
        _ => 1 + operands.length().expect("operands of a fixed length"),
    }
}
