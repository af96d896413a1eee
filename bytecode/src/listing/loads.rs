//! The types that a code's loads take of its locals: where there is no descriptor, they tell what the
//! arguments are likely to be.

use crate::decoded::{pieces, Decoded, Fields};
use std::collections::HashMap;

/// The letter of the type, as in a descriptor, for each local that the code loads before it stores
/// it, in the order of its bytes.
pub(super) fn letters(code: &[u8]) -> HashMap<usize, u8> {
    let mut letters = HashMap::new();
    let instructions = pieces(code);
    let instructions = instructions.iter().flat_map(|piece| &piece.instruction);
    for (local, letter) in instructions.filter_map(local) {
        letters.entry(local).or_insert(letter);
    }
    letters.retain(|_, letter| *letter != STORED);
    letters
}

/// Stands for the type of a local that is stored first.
const STORED: u8 = b'-';

/// The local that an instruction names, and the letter of the type that it takes from there.
fn local(instruction: &Decoded) -> Option<(usize, u8)> {
    let name = instruction.widened.unwrap_or(instruction.entry).name;
    let number = match &instruction.fields {
        Fields::Numbers(numbers) => numbers.first().copied(),
        _ => None,
    };
    if name == "iinc" {
        return Some((usize::try_from(number?).ok()?, b'I'));
    }
    let (letter, index) = match (name.split_once("load"), name.split_once("store")) {
        (Some((kind, index)), _) => (letter(kind)?, index),
        (_, Some((_, index))) => (STORED, index),
        _ => return None,
    };
    let local = match index.strip_prefix('_') {
        Some(index) => index.parse().ok()?,
        None => usize::try_from(number?).ok()?,
    };
    Some((local, letter))
}

fn letter(kind: &str) -> Option<u8> {
    Some(match kind {
        "i" => b'I',
        "l" => b'J',
        "f" => b'F',
        "d" => b'D',
        "a" => b'L',
        _ => return None,
    })
}

#[cfg(test)]
mod tests {
    use super::*;
    use crate::assembler::assemble;

    #[test]
    fn the_first_use_of_a_local_tells_its_type() {
        let code = assemble(
            "iload_0; fload_0; lload_1; wide dload 300; fload 7; aload_3; iinc 5 1; \
             istore_2; iload_2; wide fstore 8; dload 8; nop; bipush 9",
        );
        let expected = [
            (0, b'I'),
            (1, b'J'),
            (300, b'D'),
            (7, b'F'),
            (3, b'L'),
            (5, b'I'),
        ];
        assert_eq!(letters(&code.unwrap()), HashMap::from(expected));
    }
}
