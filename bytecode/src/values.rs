//! Values as they are written, and their words.

use crate::error::shown;

/// The kinds of constants and arguments.
#[derive(Clone, Copy, Debug, PartialEq, Eq)]
pub enum Kind {
    /// An int.
    Int,
    /// A float.
    Float,
    /// A long, of two words.
    Long,
    /// A double, of two words.
    Double,
}

impl Kind {
    /// The kind of a name.
    #[must_use]
    pub fn of_name(name: &str) -> Option<Kind> {
        Some(match name {
            "int" => Kind::Int,
            "float" => Kind::Float,
            "long" => Kind::Long,
            "double" => Kind::Double,
            _ => return None,
        })
    }

    /// Its name.
    #[must_use]
    pub fn name(self) -> &'static str {
        match self {
            Kind::Int => "int",
            Kind::Float => "float",
            Kind::Long => "long",
            Kind::Double => "double",
        }
    }

    /// The tag of a constant of this kind, as in JVMS 4.4.
    #[must_use]
    pub fn tag(self) -> u8 {
        match self {
            Kind::Int => 3,
            Kind::Float => 4,
            Kind::Long => 5,
            Kind::Double => 6,
        }
    }

    /// How many words a value of this kind has.
    #[must_use]
    pub fn size(self) -> usize {
        match self {
            Kind::Int | Kind::Float => 1,
            Kind::Long | Kind::Double => 2,
        }
    }

    /// The bits of a value: a decimal number, of which a float or a double gets the nearest value, or
    /// an h and then 8 or 16 hexadecimal digits.
    pub fn bits(self, value: &str) -> Result<u64, String> {
        let found = match value.strip_prefix('h') {
            Some(digits) => bits_of_digits(digits, 8 * self.size()),
            None => self.bits_of_decimal(value),
        };
        found.ok_or_else(|| {
            let (value, hint) = (shown(value), self.hint(value));
            format!("{value} is no {}{hint}", self.name())
        })
    }

    /// The end of a sentence on a value that is none, where it is close to one.
    fn hint(self, value: &str) -> String {
        if let Some(digits) = value.strip_prefix('h') {
            if digits.bytes().any(|digit| digit.is_ascii_hexdigit()) {
                return format!("; {} hexadecimal digits stand after the h", 8 * self.size());
            }
        }
        let digits = value.strip_prefix(['+', '-']).unwrap_or(value);
        let whole = !digits.is_empty() && digits.bytes().all(|digit| digit.is_ascii_digit());
        match self {
            Kind::Int if whole => format!("; an int is {} to {}", i32::MIN, i32::MAX),
            Kind::Long if whole => format!("; a long is {} to {}", i64::MIN, i64::MAX),
            Kind::Float | Kind::Double if digits.eq_ignore_ascii_case("nan") => {
                "; a NaN is given by its bits, an h and hexadecimal digits".to_string()
            }
            _ => String::new(),
        }
    }

    fn bits_of_decimal(self, value: &str) -> Option<u64> {
        // Rust reads "inf" and "nan" too.
        let is_number = !value.contains(|c: char| c.is_alphabetic() && c != 'e');
        match self {
            Kind::Int => value.parse::<i32>().ok().map(|int| u64::from(int as u32)),
            Kind::Long => value.parse::<i64>().ok().map(|long| long as u64),
            Kind::Float if is_number => value
                .parse::<f32>()
                .ok()
                .map(|float| float.to_bits().into()),
            Kind::Double if is_number => value.parse::<f64>().ok().map(f64::to_bits),
            _ => None,
        }
    }

    /// The words of a value, of two the low one first.
    pub fn words(self, value: &str) -> Result<Vec<u32>, String> {
        let bits = self.bits(value)?;
        Ok([bits as u32, (bits >> 32) as u32][..self.size()].to_vec())
    }
}

/// Hexadecimal digits, as many as there have to be.
fn bits_of_digits(digits: &str, many: usize) -> Option<u64> {
    let whole = digits.len() == many && digits.chars().all(|digit| digit.is_ascii_hexdigit());
    whole
        .then(|| u64::from_str_radix(digits, 16).ok())
        .flatten()
}

/// The bytes of hexadecimal digits, two each.
pub fn bytes(digits: &str) -> Result<Vec<u8>, String> {
    let pairs = digits.as_bytes().chunks(2);
    let byte =
        |pair: &[u8]| bits_of_digits(std::str::from_utf8(pair).ok()?, 2).map(|byte| byte as u8);
    let bytes: Option<Vec<u8>> = pairs.map(byte).collect();
    bytes.ok_or_else(|| format!("{} are no bytes in hexadecimal", shown(digits)))
}

#[cfg(test)]
mod tests {
    use super::*;

    #[test]
    fn a_value_has_its_bits() {
        for (kind, value, bits) in [
            (Kind::Int, "-1", 0xFFFF_FFFF),
            (Kind::Int, "h80000000", 0x8000_0000),
            (Kind::Float, "0.1", 0x3DCC_CCCD),
            (Kind::Float, "-0", 0x8000_0000),
            (Kind::Long, "-9223372036854775808", 1 << 63),
            (Kind::Double, "0.25", 0x3FD0_0000_0000_0000),
            (Kind::Double, "h7FF0000000000001", 0x7FF0_0000_0000_0001),
        ] {
            assert_eq!(kind.bits(value), Ok(bits), "{value}");
        }
        let low_first = Kind::Long.words("h0123456789ABCDEF");
        assert_eq!(low_first, Ok(vec![0x89AB_CDEF, 0x0123_4567]));
    }

    #[test]
    fn what_is_no_value_is_said() {
        for (kind, value) in [
            (Kind::Int, "2147483648"),
            (Kind::Int, "h0"),
            (Kind::Int, "h+0000001"),
            (Kind::Float, "nan"),
            (Kind::Double, "inf"),
            (Kind::Double, "h7FF00000"),
            (Kind::Long, ""),
        ] {
            assert!(kind.bits(value).is_err(), "{value}");
        }
        for (kind, value, what) in [
            (Kind::Int, "x", "x is no int"),
            (Kind::Int, "Hello", "Hello is no int"),
            (
                Kind::Int,
                "3000000000",
                "3000000000 is no int; an int is -2147483648 to 2147483647",
            ),
            (
                Kind::Long,
                "9223372036854775808",
                "9223372036854775808 is no long; \
                 a long is -9223372036854775808 to 9223372036854775807",
            ),
            (
                Kind::Double,
                "h7FC00000",
                "h7FC00000 is no double; 16 hexadecimal digits stand after the h",
            ),
            (
                Kind::Float,
                "NaN",
                "NaN is no float; a NaN is given by its bits, an h and hexadecimal digits",
            ),
        ] {
            assert_eq!(kind.bits(value), Err(what.to_string()));
        }
    }
}
