//! What the instructions of a code use: the constants that they load, and what a sheet cannot hold.

use super::others;
use super::pool::{Constant, Pool};
use crate::decoded::{pieces, Fields};
use crate::instructions::{of_opcode, Instruction};
use crate::mnemonics;
use std::collections::BTreeSet;

const LDC: u8 = 18;
const LDC_W: u8 = 19;
const LDC2_W: u8 = 20;
const WIDE: u8 = 196;

/// The indices of the constants that a code loads, by rising index.
///
/// # Errors
///
/// A sentence about the first instruction that a sheet cannot hold, with its offset.
pub(super) fn constants(code: &[u8], pool: &Pool) -> Result<BTreeSet<u16>, String> {
    let mut indices = BTreeSet::new();
    for piece in pieces(code) {
        let decoded = piece.instruction.ok_or_else(|| unheld(code, piece.at))?;
        if let (LDC | LDC_W | LDC2_W, Fields::Numbers(numbers)) =
            (decoded.entry.opcode, decoded.fields)
        {
            for index in numbers
                .into_iter()
                .filter_map(|index| index.try_into().ok())
            {
                held(decoded.entry, piece.at, pool.get(index))?;
                indices.insert(index);
            }
        }
    }
    Ok(indices)
}

/// What to say of bytes that are no whole instruction of the core.
fn unheld(code: &[u8], at: usize) -> String {
    let outside = |what: &str, opcode: u8| {
        let name = others::name(opcode)?;
        let end = "which is outside the 164 instructions";
        Some(format!("this method uses {what}{name} at {at}, {end}"))
    };
    let said = match code[at..] {
        [opcode, ..] if of_opcode(opcode).is_none() => outside("", opcode).or_else(|| {
            Some(format!(
                "this method has byte {opcode} at {at}, which is no instruction"
            ))
        }),
        [WIDE, opcode, ..] => outside("wide ", opcode),
        _ => None,
    };
    said.unwrap_or_else(|| {
        let text = mnemonics::instruction(code, at as u32);
        format!("this method has no whole instruction at {at}: {text}")
    })
}

/// Whether an instruction takes a constant, and a sheet holds it.
fn held(instruction: Instruction, pc: usize, constant: Option<Constant>) -> Result<(), String> {
    let name = instruction.name;
    let (taken, kinds) = match constant {
        Some(Constant::Integer(_) | Constant::Float(_)) => {
            (instruction.opcode != LDC2_W, "a long or a double")
        }
        Some(Constant::Long(_) | Constant::Double(_)) => {
            (instruction.opcode == LDC2_W, "an int or a float")
        }
        Some(other) => {
            let kind = other.kind();
            return Err(format!(
                "{name} at {pc} loads a {kind}, and a sheet holds only int, long, float and double"
            ));
        }
        None => return Err(format!("{name} at {pc} loads a constant that is not there")),
    };
    if taken {
        Ok(())
    } else {
        Err(format!("{name} at {pc} does not load {kinds}"))
    }
}

#[cfg(test)]
mod tests {
    use super::*;
    use crate::class::{example, read};
    use crate::values::bytes;

    fn used(code: &str) -> Result<Vec<u16>, String> {
        let code = bytes(&code.replace(' ', "")).unwrap();
        let class = example::class();
        let pool = read(&class).unwrap().pool;
        constants(&code, &pool).map(|indices| indices.into_iter().collect())
    }

    #[test]
    fn indices_rise_and_each_is_there_once() {
        assert_eq!(used("140007 1204 1203 130004 140005"), Ok(vec![3, 4, 5, 7]));
        // Operands are not taken for instructions: bipush, sipush, iinc, wide, goto_w and a switch.
        let others = "1012 111212 841212 C48412121212 C4151212 C812121212 1203";
        assert_eq!(used(others), Ok(vec![3]));
        let table = "AA121212 12121212 00000001 00000002 12121212 12121212 1203";
        assert_eq!(used(table), Ok(vec![3]));
        let lookup = "00AB1212 12121212 00000001 12121212 12121212 1204";
        assert_eq!(used(lookup), Ok(vec![4]));
    }

    #[test]
    fn the_first_that_is_not_held_is_said() {
        for (code, what) in [
            (
                "00BF",
                "this method uses athrow at 1, which is outside the 164 instructions",
            ),
            (
                "C4A90001",
                "this method uses wide ret at 0, which is outside the 164 instructions",
            ),
            (
                "C400",
                "this method has no whole instruction at 0: wide (cannot widen byte 0)",
            ),
            (
                "00CA",
                "this method has byte 202 at 1, which is no instruction",
            ),
            (
                "0010",
                "this method has no whole instruction at 1: bipush (cut off by the end of the code)",
            ),
            (
                "C4",
                "this method has no whole instruction at 0: wide (cut off by the end of the code)",
            ),
            (
                "AA000000 00000000 7FFFFFFF 80000000",
                "this method has no whole instruction at 0: tableswitch (lowest index 2147483647 is above highest index -2147483648)",
            ),
            (
                "AB000000 00000000 FFFFFFFF",
                "this method has no whole instruction at 0: lookupswitch (number of pairs -1 is negative)",
            ),
            ("12FF", "ldc at 0 loads a constant that is not there"),
            ("1207", "ldc at 0 does not load an int or a float"),
            ("140003", "ldc2_w at 0 does not load a long or a double"),
        ] {
            assert_eq!(used(code), Err(what.to_string()), "{code}");
        }
    }
}
