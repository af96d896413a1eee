//! Integer literals (JLS 3.10.1): decimal, hexadecimal, octal and binary, with underscores between
//! digits, and with a sign before them.

use std::ops::RangeInclusive;

/// A literal, taken apart.
pub(super) struct Integer {
    negative: bool,
    radix: u32,
    digits: String,
    /// Whether it ends in `L`.
    pub is_long: bool,
}

impl Integer {
    /// Nothing, where a text is no integer literal.
    pub fn read(text: &str) -> Option<Integer> {
        let negative = text.starts_with('-');
        let rest = text.strip_prefix(['-', '+']).unwrap_or(text);
        let number = rest.strip_suffix(['l', 'L']).unwrap_or(rest);
        let (radix, digits) = match number.as_bytes() {
            [b'0', b'x' | b'X', ..] => (16, &number[2..]),
            [b'0', b'b' | b'B', ..] => (2, &number[2..]),
            // An underscore may stand behind this 0.
            [b'0', _, ..] => (8, number),
            _ => (10, number),
        };
        let digits = without_underscores(digits, radix)?;
        let whole = !digits.is_empty() && digits.chars().all(|digit| digit.is_digit(radix));
        whole.then_some(Integer {
            negative,
            radix,
            digits,
            is_long: number.len() < rest.len(),
        })
    }

    /// Whether it is decimal.
    pub fn is_decimal(&self) -> bool {
        self.radix == 10
    }

    /// The value in 32 or 64 bits, where it fits them. What is not decimal gives the bits, so that
    /// `0xFFFFFFFF` is the int -1.
    pub fn value(&self, bits: u32) -> Option<i64> {
        let size = 1_i128 << bits;
        let magnitude = i128::from_str_radix(&self.digits, self.radix).ok()?;
        let mut value = if self.negative { -magnitude } else { magnitude };
        if !self.is_decimal() && magnitude < size {
            value = value.rem_euclid(size);
            value -= if value >= size / 2 { size } else { 0 };
        }
        let fits = (-size / 2..size / 2).contains(&value);
        fits.then_some(value)
            .and_then(|value| value.try_into().ok())
    }
}

/// A text without its underscores, each of which has to stand between digits.
pub(super) fn without_underscores(text: &str, radix: u32) -> Option<String> {
    let is_digit = |letter: char| letter.is_digit(radix);
    let parts: Vec<&str> = text.split('_').collect();
    // Where several stand side by side, a part between them is empty.
    let between = parts.windows(2).all(|pair| {
        (pair[0].is_empty() || pair[0].ends_with(is_digit))
            && (pair[1].is_empty() || pair[1].starts_with(is_digit))
    });
    let outside = text.starts_with('_') || text.ends_with('_');
    (between && !outside).then(|| parts.concat())
}

/// An int in the range of a type.
pub(super) fn int(text: &str, name: &str, range: RangeInclusive<i32>) -> Result<i32, String> {
    let literal = Integer::read(text).ok_or_else(|| no_integer(text, name))?;
    if literal.is_long {
        return Err(format!("{text} is no {name}: its L makes it a long"));
    }
    let value = literal
        .value(32)
        .and_then(|value| i32::try_from(value).ok());
    let (least, most) = (range.start(), range.end());
    value
        .filter(|value| range.contains(value))
        .ok_or_else(|| format!("{text} is no {name}: {least} to {most}"))
}

/// A long, with its L or without.
pub(super) fn long(text: &str) -> Result<i64, String> {
    let literal = Integer::read(text).ok_or_else(|| no_integer(text, "long"))?;
    let (least, most) = (i64::MIN, i64::MAX);
    literal
        .value(64)
        .ok_or_else(|| format!("{text} is no long: {least} to {most}"))
}

fn no_integer(text: &str, name: &str) -> String {
    let digits = text.trim_start_matches(['-', '+']);
    if digits.starts_with('0') && digits.chars().all(|digit| digit.is_ascii_digit()) {
        return format!("{text} is no {name}: a number that begins with 0 is octal");
    }
    format!("{text} is no {name}")
}

#[cfg(test)]
mod tests {
    use super::*;

    fn as_int(text: &str) -> Result<i32, String> {
        int(text, "int", i32::MIN..=i32::MAX)
    }

    #[test]
    fn each_notation_has_its_value() {
        for (text, value) in [
            ("42", 42),
            ("+7", 7),
            ("0", 0),
            ("-2147483648", i32::MIN),
            ("0x1F", 31),
            ("-0X1f", -31),
            ("0xFFFFFFFF", -1),
            ("-0x80000000", i32::MIN),
            ("-0xFFFFFFFF", 1),
            ("0b1010", 10),
            ("017", 15),
            ("0_17", 15),
            ("1_000__000", 1_000_000),
        ] {
            assert_eq!(as_int(text), Ok(value), "{text}");
        }
        for (text, value) in [
            ("3000000000", 3_000_000_000),
            ("3000000000L", 3_000_000_000),
            ("-1l", -1),
            // The suffix is as if it were there: in Java 0xFFFFFFFF without it is an int, -1.
            ("0xFFFFFFFF", 0xFFFF_FFFF),
            ("0x8000000000000000", i64::MIN),
            ("-9223372036854775808", i64::MIN),
        ] {
            assert_eq!(long(text), Ok(value), "{text}");
        }
    }

    #[test]
    fn what_is_none_is_said() {
        for (text, what) in [
            ("", " is no int"),
            ("-", "- is no int"),
            ("--1", "--1 is no int"),
            ("1.0", "1.0 is no int"),
            ("abc", "abc is no int"),
            ("0x", "0x is no int"),
            ("1_", "1_ is no int"),
            ("_1", "_1 is no int"),
            ("0x_1", "0x_1 is no int"),
            ("٣", "٣ is no int"),
            ("08", "08 is no int: a number that begins with 0 is octal"),
            ("42L", "42L is no int: its L makes it a long"),
            (
                "0x100000000",
                "0x100000000 is no int: -2147483648 to 2147483647",
            ),
            (
                "-2147483649",
                "-2147483649 is no int: -2147483648 to 2147483647",
            ),
        ] {
            assert_eq!(as_int(text), Err(what.to_string()));
        }
        let what = "-9223372036854775808 to 9223372036854775807";
        let many = "9".repeat(60);
        for text in ["9223372036854775808", "0x10000000000000000", &many] {
            assert_eq!(long(text), Err(format!("{text} is no long: {what}")));
        }
    }

    #[test]
    fn a_range_is_that_of_the_type() {
        let byte = |text| int(text, "byte", -128..=127);
        assert_eq!(byte("0x7F"), Ok(127));
        assert_eq!(byte("0xFFFFFF80"), Ok(-128));
        // 255, as in Java.
        assert_eq!(
            byte("0xFF"),
            Err("0xFF is no byte: -128 to 127".to_string())
        );
    }
}
