//! The arguments of a sheet: by its descriptor's parameters, or else by the loads of its code.

use super::{loads, value};
use crate::descriptor::letters;
use crate::sheet::Sheet;
use crate::values::Kind;

/// An argument: its first local, the letter of its type in the descriptor, and its bits.
struct Argument {
    local: usize,
    letter: u8,
    bits: u64,
}

impl Argument {
    fn kind(&self) -> Kind {
        kind_of(self.letter)
    }
}

/// A line for each argument of the listing. Where the descriptor does not tell what they are, the
/// words stand there too.
pub(super) fn shown(sheet: &Sheet) -> Vec<String> {
    match by_descriptor(sheet) {
        Some(arguments) => {
            let line = |one: &Argument| format!("{}: {}", locals(one), named_value(one));
            arguments.iter().map(line).collect()
        }
        None => by_loads(sheet).iter().map(line_with_words).collect(),
    }
}

fn line_with_words(argument: &Argument) -> String {
    let (low, high) = (argument.bits as u32, (argument.bits >> 32) as u32);
    let words = match argument.kind().size() {
        1 => format!("word {low:08X}"),
        _ => format!("words {low:08X} {high:08X}"),
    };
    let article = if argument.letter == b'I' { "an" } else { "a" };
    let value = named_value(argument);
    format!("{}: {words}, as {article} {value}", locals(argument))
}

fn locals(argument: &Argument) -> String {
    let local = argument.local;
    match argument.kind().size() {
        1 => format!("local {local}"),
        _ => format!("locals {local} and {}", local + 1),
    }
}

/// The name of the type, and the value.
fn named_value(argument: &Argument) -> String {
    let value = match (argument.letter, argument.bits) {
        (b'L', 0) => "null".to_string(),
        (b'L', bits) => format!("{bits:08X}"),
        (b'Z', 0) => "false".to_string(),
        (b'Z', 1) => "true".to_string(),
        (_, bits) => value::shown(argument.kind(), bits),
    };
    format!("{} {value}", name(argument.letter))
}

/// A line for each argument of the source.
pub(super) fn said(sheet: &Sheet) -> Vec<String> {
    let arguments = by_descriptor(sheet).unwrap_or_else(|| by_loads(sheet));
    let line = |argument: &Argument| {
        let kind = argument.kind();
        let value = value::said(kind, argument.bits);
        format!("argument {} {value}", super::kind_name(kind))
    };
    arguments.iter().map(line).collect()
}

/// The arguments, where the descriptor has parameters that take as many words.
fn by_descriptor(sheet: &Sheet) -> Option<Vec<Argument>> {
    let (mut arguments, mut words) = (vec![], &sheet.arguments[..]);
    for letter in letters(sheet.descriptor.as_deref()?)? {
        let local = sheet.arguments.len() - words.len();
        let (value, rest) = words.split_at_checked(kind_of(letter).size())?;
        let high = value.get(1).copied().unwrap_or(0);
        let bits = u64::from(high) << 32 | u64::from(value[0]);
        words = rest;
        arguments.push(Argument {
            local,
            letter,
            bits,
        });
    }
    words.is_empty().then_some(arguments)
}

/// The arguments as the code first loads them; ints where it does not, or where a word is missing.
fn by_loads(sheet: &Sheet) -> Vec<Argument> {
    let letters = loads::letters(&sheet.code);
    let (mut arguments, mut local) = (vec![], 0);
    while let Some(low) = sheet.arguments.get(local) {
        let letter = letters.get(&local).copied().unwrap_or(b'I');
        let (letter, high) = match (kind_of(letter).size(), sheet.arguments.get(local + 1)) {
            (1, _) => (letter, 0),
            (_, Some(high)) => (letter, *high),
            (_, None) => (b'I', 0),
        };
        arguments.push(Argument {
            local,
            letter,
            bits: u64::from(high) << 32 | u64::from(*low),
        });
        local += kind_of(letter).size();
    }
    arguments
}

/// The kind of a value of a type.
fn kind_of(letter: u8) -> Kind {
    match letter {
        b'J' => Kind::Long,
        b'D' => Kind::Double,
        b'F' => Kind::Float,
        _ => Kind::Int,
    }
}

fn name(letter: u8) -> &'static str {
    match letter {
        b'B' => "byte",
        b'C' => "char",
        b'D' => "double",
        b'F' => "float",
        b'J' => "long",
        b'L' => "reference",
        b'S' => "short",
        b'Z' => "boolean",
        _ => "int",
    }
}

#[cfg(test)]
mod tests {
    use super::*;

    fn sheet(descriptor: &str, arguments: &[u32]) -> Sheet {
        Sheet {
            descriptor: Some(descriptor.into()),
            arguments: arguments.to_vec(),
            ..Sheet::default()
        }
    }

    #[test]
    fn arguments_have_the_kinds_of_the_parameters() {
        let words = [
            0x3DCC_CCCD,
            0xFFFF_FFFE,
            0xFFFF_FFFF,
            1,
            2,
            0,
            7,
            0,
            0x3FD0_0000,
            0xFFFF_FFF8,
        ];
        let sheet = sheet("(FJZZLA;[[JDB)V", &words);
        let lines = [
            "local 0: float 0.1f",
            "locals 1 and 2: long -2L",
            "local 3: boolean true",
            "local 4: boolean 2",
            "local 5: reference null",
            "local 6: reference 00000007",
            "locals 7 and 8: double 0.25d",
            "local 9: byte -8",
        ];
        assert_eq!(shown(&sheet), lines);
        let lines = [
            "argument float 0.1",
            "argument long -2",
            "argument int 1",
            "argument int 2",
            "argument int 0",
            "argument int 7",
            "argument double 0.25",
            "argument int -8",
        ];
        assert_eq!(said(&sheet), lines);
    }

    #[test]
    fn words_that_suit_no_parameters_are_as_they_are_loaded() {
        for descriptor in ["(I)V", "(JI)V", "(IQ)V", "(ILA)V", "II", "(II", ""] {
            let mut sheet = sheet(descriptor, &[5, 0x3F80_0000, u32::MAX, 0, 7, 8]);
            let lines = [
                "local 0: word 00000005, as an int 5",
                "local 1: word 3F800000, as an int 1065353216",
            ];
            assert_eq!(shown(&sheet)[..2], lines);
            // fload_1; lload_2; aload 4; dload 5, of which the second word is missing.
            sheet.code = vec![0x23, 0x20, 0x19, 4, 0x18, 5];
            let lines = [
                "local 0: word 00000005, as an int 5",
                "local 1: word 3F800000, as a float 1.0f",
                "locals 2 and 3: words FFFFFFFF 00000000, as a long 4294967295L",
                "local 4: word 00000007, as a reference 00000007",
                "local 5: word 00000008, as an int 8",
            ];
            assert_eq!(shown(&sheet), lines);
            let lines = [
                "argument int 5",
                "argument float 1.0",
                "argument long 4294967295",
                "argument int 7",
                "argument int 8",
            ];
            assert_eq!(said(&sheet), lines);
        }
    }
}
