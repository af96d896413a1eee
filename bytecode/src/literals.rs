//! Java's literals (JLS 3.10) as words, by the type of a parameter.
//!
//! A literal without a suffix has the parameter's type, as if its suffix were there: `3000000000` is
//! a long where one is taken, and `-0` a float's negative zero. `NaN`, `Infinity` and `-Infinity` are
//! taken too. Of a long or a double the low word comes first.
//!
//! ```
//! use bytecode::{descriptor::Type, literals::words};
//!
//! assert_eq!(words(&Type::Int, "0x1F"), Ok(vec![31]));
//! assert_eq!(words(&Type::Long, "3000000000L"), Ok(vec![3_000_000_000, 0]));
//! assert_eq!(words(&Type::Byte, "200"), Err("200 is no byte: -128 to 127".to_string()));
//! ```

mod character;
mod floating;
mod integer;

use crate::descriptor::Type;

/// The words of a literal.
///
/// # Errors
///
/// A sentence, where the text is no value of the type.
pub fn words(of: &Type, text: &str) -> Result<Vec<u32>, String> {
    let int = |name, range| integer::int(text, name, range).map(|value| vec![value as u32]);
    let two = |bits: u64| vec![bits as u32, (bits >> 32) as u32];
    match of {
        Type::Boolean => boolean(text).map(|value| vec![value.into()]),
        Type::Byte => int("byte", -128..=127),
        Type::Short => int("short", -32_768..=32_767),
        Type::Char => character::unit(text).map(|unit| vec![unit.into()]),
        Type::Int => int("int", i32::MIN..=i32::MAX),
        Type::Long => integer::long(text).map(|value| two(value as u64)),
        Type::Float => floating::float(text).map(|value| vec![value.to_bits()]),
        Type::Double => floating::double(text).map(|value| two(value.to_bits())),
        Type::Reference(_) if text == "null" => Ok(vec![0]),
        Type::Reference(name) => {
            let what = format!("{text} is no {name} that a sheet holds: only null is");
            Err(what)
        }
    }
}

fn boolean(text: &str) -> Result<bool, String> {
    let found = text.parse();
    found.map_err(|_| format!("{text} is no boolean: true or false"))
}

#[cfg(test)]
mod tests {
    use super::*;

    #[test]
    fn a_value_of_each_type_has_its_words() {
        let object = Type::Reference("java.lang.Object".to_string());
        for (of, text, found) in [
            (Type::Boolean, "true", &[1][..]),
            (Type::Boolean, "false", &[0]),
            (Type::Byte, "-128", &[0xFFFF_FF80]),
            (Type::Short, "32767", &[0x7FFF]),
            (Type::Char, "'A'", &[0x41]),
            (Type::Int, "-1", &[0xFFFF_FFFF]),
            (Type::Long, "-2", &[0xFFFF_FFFE, 0xFFFF_FFFF]),
            (Type::Long, "0x123456789L", &[0x2345_6789, 1]),
            (Type::Float, "0.1f", &[0x3DCC_CCCD]),
            (Type::Double, "-0.25", &[0, 0xBFD0_0000]),
            (object, "null", &[0]),
        ] {
            assert_eq!(words(&of, text), Ok(found.to_vec()), "{text}");
        }
    }

    #[test]
    fn what_is_no_value_of_a_type_is_said() {
        let strings = Type::Reference("java.lang.String[]".to_string());
        for (of, text, what) in [
            (Type::Boolean, "1", "1 is no boolean: true or false"),
            (Type::Byte, "200", "200 is no byte: -128 to 127"),
            (Type::Short, "32768", "32768 is no short: -32768 to 32767"),
            (
                Type::Int,
                "2147483648",
                "2147483648 is no int: -2147483648 to 2147483647",
            ),
            (
                strings,
                "hello",
                "hello is no java.lang.String[] that a sheet holds: only null is",
            ),
        ] {
            assert_eq!(words(&of, text), Err(what.to_string()));
        }
    }
}
