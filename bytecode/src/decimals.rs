//! Floats and doubles as Java writes them: the shortest decimal that gives the bits back, with two
//! digits at least, and of those the nearest.

/// A float, by its bits, as `Float.toString` gives it: without the `f` of a literal.
///
/// ```
/// assert_eq!(bytecode::decimals::float(0x3DCC_CCCD), "0.1");
/// ```
#[must_use]
pub fn float(bits: u32) -> String {
    let float = f32::from_bits(bits);
    named(float.into()).unwrap_or_else(|| {
        let shortest = format!("{float:e}");
        let nearest = format!("{float:.*e}", decimals(&shortest));
        let same = nearest.parse() == Ok(float);
        laid_out(if same { &nearest } else { &shortest })
    })
}

/// A double, by its bits, as `Double.toString` gives it.
///
/// ```
/// assert_eq!(bytecode::decimals::double(0x4202_A05F_2000_0000), "1.0E10");
/// ```
#[must_use]
pub fn double(bits: u64) -> String {
    let double = f64::from_bits(bits);
    named(double).unwrap_or_else(|| {
        let shortest = format!("{double:e}");
        let nearest = format!("{double:.*e}", decimals(&shortest));
        let same = nearest.parse() == Ok(double);
        laid_out(if same { &nearest } else { &shortest })
    })
}

/// How many digits after the point a number has that is given as Rust's `{:e}`, and one at least. The
/// nearest with so many takes the even digit of two that are as near, which the shortest need not.
fn decimals(shortest: &str) -> usize {
    let mantissa = shortest.split('e').next().unwrap_or("");
    mantissa.split('.').nth(1).map_or(1, str::len)
}

/// What is no number.
fn named(number: f64) -> Option<String> {
    let name = if number.is_nan() {
        "NaN"
    } else if number == f64::INFINITY {
        "Infinity"
    } else if number == f64::NEG_INFINITY {
        "-Infinity"
    } else {
        return None;
    };
    Some(name.to_string())
}

/// Java's layout of a number that is given as Rust's `{:e}`.
fn laid_out(text: &str) -> String {
    let (sign, text) = match text.strip_prefix('-') {
        Some(rest) => ("-", rest),
        None => ("", text),
    };
    let (mantissa, exponent) = text.split_once('e').unwrap_or((text, "0"));
    let digits = mantissa.replace('.', "");
    let mut digits = digits.trim_end_matches('0');
    if digits.is_empty() {
        digits = "0";
    }
    let exponent: i32 = exponent.parse().unwrap_or(0);
    format!("{sign}{}", placed(digits, exponent))
}

/// Digits, of which the first has the value of ten to the exponent.
fn placed(digits: &str, exponent: i32) -> String {
    let or_zero = |digits: &str| if digits.is_empty() { "0" } else { digits }.to_string();
    match exponent {
        -3..0 => {
            let zeros = "0".repeat(exponent.unsigned_abs() as usize - 1);
            format!("0.{zeros}{digits}")
        }
        0..7 => {
            let whole = exponent as usize + 1;
            let before = &digits[..whole.min(digits.len())];
            let after = &digits[before.len()..];
            format!("{before:0<whole$}.{}", or_zero(after))
        }
        _ => format!("{}.{}E{exponent}", &digits[..1], or_zero(&digits[1..])),
    }
}

#[cfg(test)]
mod tests {
    use super::*;

    #[test]
    fn floats_are_as_java_writes_them() {
        for (bits, text) in [
            (0x0000_0000, "0.0"),
            (0x8000_0000, "-0.0"),
            (0x3F80_0000, "1.0"),
            (0xBFC0_0000, "-1.5"),
            (0x3DCC_CCCD, "0.1"),
            (0x3A83_126F, "0.001"),
            (0x3A83_126E, "9.999999E-4"),
            (0x4B18_967F, "9999999.0"),
            (0x4B18_9680, "1.0E7"),
            (0x5015_02F9, "1.0E10"),
            (0x4B80_0000, "1.6777216E7"),
            // In the middle of two decimals: the even digit.
            (0x49FF_BB62, "2094956.2"),
            (0x7F7F_FFFF, "3.4028235E38"),
            (0x0080_0000, "1.1754944E-38"),
            (0x0000_0001, "1.4E-45"),
            (0x0000_0002, "2.8E-45"),
            (0x7F80_0000, "Infinity"),
            (0xFF80_0000, "-Infinity"),
            (0x7FC0_0000, "NaN"),
            (0xFFFF_FFFF, "NaN"),
        ] {
            assert_eq!(float(bits), text, "{bits:08X}");
        }
    }

    #[test]
    fn doubles_are_as_java_writes_them() {
        for (bits, text) in [
            (0x0000_0000_0000_0000, "0.0"),
            (0x8000_0000_0000_0000, "-0.0"),
            (0x3FB9_9999_9999_999A, "0.1"),
            (0x4059_0000_0000_0000, "100.0"),
            (0x4202_A06B_5506_0000, "1.000010000075E10"),
            (0x44B5_2D02_C7E1_4AF6, "1.0E23"),
            (0x7FEF_FFFF_FFFF_FFFF, "1.7976931348623157E308"),
            (0x0010_0000_0000_0000, "2.2250738585072014E-308"),
            (0x0000_0000_0000_0001, "4.9E-324"),
            (0xFFF0_0000_0000_0000, "-Infinity"),
            (0x7FF8_0000_0000_0000, "NaN"),
        ] {
            assert_eq!(double(bits), text, "{bits:016X}");
        }
    }

    #[test]
    fn the_decimal_gives_the_bits_back() {
        // Steps that meet every exponent, with mantissas that look random.
        for bits in (0..=u32::MAX).step_by(104_729) {
            if !f32::from_bits(bits).is_nan() {
                let again = float(bits).parse::<f32>().map(f32::to_bits);
                assert_eq!(again, Ok(bits), "{bits:08X}");
            }
        }
        for bits in (0..=u64::MAX).step_by(104_729 << 32 | 12_289) {
            if !f64::from_bits(bits).is_nan() {
                let again = double(bits).parse::<f64>().map(f64::to_bits);
                assert_eq!(again, Ok(bits), "{bits:016X}");
            }
        }
    }
}
