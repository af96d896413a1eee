//! What the return type in a state asks of a return, and makes of its value (JVMS 6.5, ireturn).

/// Question 32: a return opcode of the state's kind. A number that is no return type's asks nothing.
pub fn suits(opcode: u8, return_type: u32) -> bool {
    let kind = char::from_u32(return_type);
    let of_kind = match kind {
        Some('B' | 'C' | 'I' | 'S' | 'Z') => 172,
        Some('J') => 173,
        Some('F') => 174,
        Some('D') => 175,
        Some('L') => 176,
        Some('V') => 177,
        _ => return true,
    };
    !matches!(opcode, 172..=177) || opcode == of_kind
}

/// The int that a method of a return type gives back.
pub fn narrowed(return_type: u32, int: u32) -> u32 {
    match char::from_u32(return_type) {
        Some('Z') => int & 1,
        Some('B') => int as i8 as u32,
        Some('C') => u32::from(int as u16),
        Some('S') => int as i16 as u32,
        _ => int,
    }
}

#[cfg(test)]
mod tests {
    use super::*;

    const KINDS: [&str; 6] = ["BCISZ", "J", "F", "D", "L", "V"];

    #[test]
    fn a_return_has_its_kinds_and_any_number_that_is_none() {
        for (opcode, own) in (172..).zip(KINDS) {
            for other in KINDS.concat().chars() {
                let asked = suits(opcode, other.into());
                assert_eq!(asked, own.contains(other), "{opcode} {other}");
            }
            for none in [0, 1, 0x41, 0x5B, 0x62, 0x142, 0x0100_0042, 0xD800, u32::MAX] {
                assert!(suits(opcode, none), "{opcode} {none:X}");
            }
        }
        for opcode in (0..172).chain(178..=255) {
            assert!(suits(opcode, 'V'.into()), "{opcode}");
        }
    }

    #[test]
    fn only_small_kinds_narrow() {
        for (kind, int, given) in [
            ('Z', 2, 0),
            ('Z', u32::MAX, 1),
            ('B', 200, 0xFFFF_FFC8),
            ('B', 0xFFFF_FF7F, 0x7F),
            ('C', 0xFFFF_FFFF, 0xFFFF),
            ('C', 0x1_0041, 0x41),
            ('S', 0x8000, 0xFFFF_8000),
            ('S', 0x1_7FFF, 0x7FFF),
            ('I', 0x1234_5678, 0x1234_5678),
            ('b', 200, 200),
            ('\0', 0x8000_0000, 0x8000_0000),
        ] {
            assert_eq!(narrowed(kind.into(), int), given, "{kind} {int:X}");
        }
    }
}
