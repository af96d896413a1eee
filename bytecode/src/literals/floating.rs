//! Literals of a float or a double (JLS 3.10.2), in decimal. An integer literal is taken too, as
//! Java takes it for such a parameter.

use super::integer::{without_underscores, Integer};

/// A float: the nearest one to what is written.
pub(super) fn float(text: &str) -> Result<f32, String> {
    if is_floating(text) && text.ends_with(['d', 'D']) {
        return Err(format!("{text} is no float: its d makes it a double"));
    }
    let number = read(text, "float", str::parse::<f32>, |integer| integer as f32)?;
    in_range(text, "float", number.into())?;
    Ok(number)
}

/// A double: the nearest one to what is written, or the value of a float, where an f is behind it.
pub(super) fn double(text: &str) -> Result<f64, String> {
    if is_floating(text) && text.ends_with(['f', 'F']) {
        return float(text).map(f64::from);
    }
    let number = read(text, "double", str::parse::<f64>, |integer| integer as f64)?;
    in_range(text, "double", number)?;
    Ok(number)
}

/// Reads a number in one of Rust's two types.
fn read<T, E>(
    text: &str,
    name: &str,
    parse: impl Fn(&str) -> Result<T, E>,
    of_integer: impl Fn(i64) -> T,
) -> Result<T, String> {
    let none = || format!("{text} is no {name}");
    let unsigned = text.strip_prefix(['-', '+']).unwrap_or(text);
    if unsigned == "Infinity" || text == "NaN" {
        return parse(text).map_err(|_| none());
    }
    if let Some(integer) = Integer::read(text).filter(|integer| !integer.is_decimal()) {
        let value = integer.value(if integer.is_long { 64 } else { 32 });
        return value.map(of_integer).ok_or_else(none);
    }
    if unsigned.starts_with("0x") || unsigned.starts_with("0X") {
        return Err(format!("{text} is no {name} in decimal"));
    }
    let suffixes = ['f', 'F', 'd', 'D', 'l', 'L'];
    if !is_floating(text) && Integer::read(text).is_none() {
        return Err(none());
    }
    let digits = text.strip_suffix(suffixes).unwrap_or(text);
    let digits = without_underscores(digits, 10).ok_or_else(none)?;
    parse(&digits).map_err(|_| none())
}

/// Whether a text is a literal with a point, an exponent or a suffix, as far as its letters say. The
/// words that Rust reads besides, as `inf`, are none.
fn is_floating(text: &str) -> bool {
    let unsigned = text.strip_prefix(['-', '+']).unwrap_or(text);
    let number = unsigned
        .strip_suffix(['f', 'F', 'd', 'D'])
        .unwrap_or(unsigned);
    let marked = number.len() < unsigned.len() || number.contains(['.', 'e', 'E']);
    let letters = |letter: char| letter.is_ascii_digit() || "._eE+-".contains(letter);
    marked
        && number.starts_with(|c: char| c.is_ascii_digit() || c == '.')
        && number.chars().all(letters)
}

/// A number that is written has to be no infinity, and 0 only where its digits are.
fn in_range(text: &str, name: &str, number: f64) -> Result<(), String> {
    if text.contains(['N', 'I']) || text.contains(['x', 'X', 'b', 'B']) {
        return Ok(());
    }
    let mantissa = text.split(['e', 'E']).next().unwrap_or(text);
    if number.is_infinite() {
        Err(format!("{text} is too large for a {name}"))
    } else if number == 0.0 && mantissa.contains(|c: char| ('1'..='9').contains(&c)) {
        Err(format!("{text} is too small for a {name}: it would be 0"))
    } else {
        Ok(())
    }
}

#[cfg(test)]
mod tests {
    use super::*;

    #[test]
    fn a_float_is_the_nearest() {
        for (text, bits) in [
            ("0.1f", 0x3DCC_CCCD),
            ("0.1", 0x3DCC_CCCD),
            ("1e-5", 0x3727_C5AC),
            ("1E5F", 0x47C3_5000),
            ("1.", 0x3F80_0000),
            (".5", 0x3F00_0000),
            ("-0", 0x8000_0000),
            ("3", 0x4040_0000),
            ("3L", 0x4040_0000),
            ("0x1F", 0x41F8_0000),
            ("0xFFFFFFFF", 0xBF80_0000),
            ("010", 0x4100_0000),
            ("010f", 0x4120_0000),
            ("1_0.2_5", 0x4124_0000),
            ("16777217", 0x4B80_0000),
            ("3.4028235e38", 0x7F7F_FFFF),
            ("1.4e-45f", 0x0000_0001),
            ("NaN", 0x7FC0_0000),
            ("Infinity", 0x7F80_0000),
            ("-Infinity", 0xFF80_0000),
        ] {
            assert_eq!(float(text).map(f32::to_bits), Ok(bits), "{text}");
        }
    }

    #[test]
    fn a_double_is_the_nearest() {
        for (text, bits) in [
            ("0.1", 0x3FB9_9999_9999_999A),
            ("0.1d", 0x3FB9_9999_9999_999A),
            // The float's value, as in Java.
            ("0.1f", 0x3FB9_9999_A000_0000),
            ("1e-5", 0x3EE4_F8B5_88E3_68F1),
            ("3000000000", 0x41E6_5A0B_C000_0000),
            ("NaN", 0x7FF8_0000_0000_0000),
            ("-Infinity", 0xFFF0_0000_0000_0000),
            ("-0.0", 0x8000_0000_0000_0000),
            ("0e9", 0),
        ] {
            assert_eq!(double(text).map(f64::to_bits), Ok(bits), "{text}");
        }
    }

    #[test]
    fn what_is_none_is_said() {
        for (text, what) in [
            ("", " is no float"),
            (".", ". is no float"),
            ("e5", "e5 is no float"),
            ("1e", "1e is no float"),
            ("inf", "inf is no float"),
            ("nan", "nan is no float"),
            ("-NaN", "-NaN is no float"),
            ("f", "f is no float"),
            ("1_.5", "1_.5 is no float"),
            ("1_e5", "1_e5 is no float"),
            ("09", "09 is no float"),
            ("x", "x is no float"),
            ("0x1p3", "0x1p3 is no float in decimal"),
            ("0.1d", "0.1d is no float: its d makes it a double"),
            ("1e40", "1e40 is too large for a float"),
            ("-1e-50f", "-1e-50f is too small for a float: it would be 0"),
        ] {
            assert_eq!(float(text).map(f32::to_bits), Err(what.to_string()));
        }
        let small = "1e-400 is too small for a double: it would be 0";
        assert_eq!(double("1e-400"), Err(small.to_string()));
        assert_eq!(
            double("1e40f"),
            Err("1e40f is too large for a float".to_string())
        );
    }
}
