//! The return type of a method, as a state has it.

use std::fmt;

/// The return type that a sheet's descriptor gives its method (JVMS 4.3.3): the first character of
/// the return descriptor as an ASCII number, `L` for an array too, 0 without a descriptor. Any other
/// word counts as none; it is kept as it stands, because the library keeps it so.
///
/// ```
/// use workbook_host::{Refusal, ReturnType, Walk};
///
/// // max_stack 1, max_locals 0; ()B; ICONST_1, IRETURN.
/// let sheet = b"LM\x00\x04\x00\x01\x00\x00DS\x00\x03()BCD\x00\x02\x04\xACAR\x00\x00";
/// let return_type = Walk::open(sheet.to_vec())?.return_type();
/// assert_eq!(return_type, ReturnType::BYTE);
/// assert_eq!(return_type.name(), "byte");
/// # Ok::<(), Refusal>(())
/// ```
#[derive(Clone, Copy, Debug, Default, PartialEq, Eq, Hash)]
pub struct ReturnType(u32);

impl ReturnType {
    /// `Z`: the int that is returned keeps bit 0.
    pub const BOOLEAN: ReturnType = ReturnType(b'Z' as u32);
    /// `B`: the int that is returned keeps eight bits, extended by sign.
    pub const BYTE: ReturnType = ReturnType(b'B' as u32);
    /// `C`: the int that is returned keeps sixteen bits, extended by zeros.
    pub const CHAR: ReturnType = ReturnType(b'C' as u32);
    /// `S`: the int that is returned keeps sixteen bits, extended by sign.
    pub const SHORT: ReturnType = ReturnType(b'S' as u32);
    /// `I`.
    pub const INT: ReturnType = ReturnType(b'I' as u32);
    /// `J`.
    pub const LONG: ReturnType = ReturnType(b'J' as u32);
    /// `F`.
    pub const FLOAT: ReturnType = ReturnType(b'F' as u32);
    /// `D`.
    pub const DOUBLE: ReturnType = ReturnType(b'D' as u32);
    /// `L`: a class, an interface or an array.
    pub const REFERENCE: ReturnType = ReturnType(b'L' as u32);
    /// `V`: no value.
    pub const VOID: ReturnType = ReturnType(b'V' as u32);
    /// The sheet has no descriptor, so nothing is asked of a return instruction.
    pub const NONE: ReturnType = ReturnType(0);

    /// The return type of a state's word.
    #[must_use]
    pub const fn from_word(word: u32) -> ReturnType {
        ReturnType(word)
    }

    /// The state's word.
    #[must_use]
    pub const fn word(self) -> u32 {
        self.0
    }

    /// The name that Java has for it; `reference` for all references, `none` where the word is none
    /// of the letters.
    #[must_use]
    pub const fn name(self) -> &'static str {
        match self {
            ReturnType::BOOLEAN => "boolean",
            ReturnType::BYTE => "byte",
            ReturnType::CHAR => "char",
            ReturnType::SHORT => "short",
            ReturnType::INT => "int",
            ReturnType::LONG => "long",
            ReturnType::FLOAT => "float",
            ReturnType::DOUBLE => "double",
            ReturnType::REFERENCE => "reference",
            ReturnType::VOID => "void",
            _ => "none",
        }
    }
}

impl fmt::Display for ReturnType {
    fn fmt(&self, f: &mut fmt::Formatter<'_>) -> fmt::Result {
        f.write_str(self.name())
    }
}

#[cfg(test)]
mod tests {
    use super::*;

    const NAMES: [(u8, &str); 10] = [
        (b'B', "byte"),
        (b'C', "char"),
        (b'D', "double"),
        (b'F', "float"),
        (b'I', "int"),
        (b'J', "long"),
        (b'L', "reference"),
        (b'S', "short"),
        (b'V', "void"),
        (b'Z', "boolean"),
    ];

    #[test]
    fn each_letter_has_its_name() {
        for (letter, name) in NAMES {
            assert_eq!(ReturnType::from_word(letter.into()).to_string(), name);
        }
    }

    #[test]
    fn every_other_word_is_kept_and_counts_as_none() {
        let letter = |word: &u32| NAMES.iter().any(|(letter, _)| u32::from(*letter) == *word);
        // With one bit more a letter is none: all 32 bits count.
        let more = NAMES.iter().map(|(letter, _)| u32::from(*letter) | 1 << 31);
        let others = (0..0x200).chain(more).filter(|word| !letter(word));
        let mut met = 0;
        for word in others {
            assert_eq!(ReturnType::from_word(word).name(), "none", "{word:X}");
            assert_eq!(ReturnType::from_word(word).word(), word);
            met += 1;
        }
        assert_eq!(met, 0x200);
        assert_eq!(ReturnType::from_word(0), ReturnType::NONE);
        assert_ne!(ReturnType::from_word(0x142), ReturnType::NONE);
    }
}
