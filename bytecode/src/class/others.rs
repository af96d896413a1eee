//! The names of the instructions that are outside of the 164 (JVMS 6.5), to name one that a method
//! uses.

/// The first of neighbouring opcodes, and their names.
const GROUPS: [(u8, &str); 7] = [
    (
        46,
        "iaload laload faload daload aaload baload caload saload",
    ),
    (
        79,
        "iastore lastore fastore dastore aastore bastore castore sastore",
    ),
    (168, "jsr ret"),
    (178, "getstatic putstatic getfield putfield"),
    (
        182,
        "invokevirtual invokespecial invokestatic invokeinterface invokedynamic",
    ),
    (
        187,
        "new newarray anewarray arraylength athrow checkcast instanceof monitorenter monitorexit",
    ),
    (197, "multianewarray"),
];

/// The opcode of `jsr_w`, which stands alone.
const JSR_W: u8 = 201;

/// The name of an opcode outside of the 164, where it has one.
pub(super) fn name(opcode: u8) -> Option<&'static str> {
    if opcode == JSR_W {
        return Some("jsr_w");
    }
    GROUPS.iter().find_map(|&(first, names)| {
        let place = opcode.checked_sub(first)?;
        names.split(' ').nth(place.into())
    })
}

#[cfg(test)]
mod tests {
    use super::*;
    use crate::instructions::of_opcode;

    #[test]
    fn each_opcode_up_to_201_is_here_or_among_the_164() {
        for opcode in 0..=u8::MAX {
            let both = (name(opcode).is_some(), of_opcode(opcode).is_some());
            let expected = match opcode {
                202.. => (false, false),
                _ => (!both.1, both.1),
            };
            assert_eq!(both, expected, "{opcode}");
        }
    }

    #[test]
    fn names_stand_at_their_opcodes() {
        let some = [
            (46, "iaload"),
            (53, "saload"),
            (86, "sastore"),
            (169, "ret"),
            (181, "putfield"),
            (186, "invokedynamic"),
            (191, "athrow"),
            (195, "monitorexit"),
            (197, "multianewarray"),
            (201, "jsr_w"),
        ];
        for (opcode, text) in some {
            assert_eq!(name(opcode), Some(text));
        }
    }
}
