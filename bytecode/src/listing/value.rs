//! Values as a listing and a source have them.

use crate::decimals;
use crate::values::Kind;

/// A value as Java's own text for it: `7`, `0.1f`, `3000000000L`, `0.25d`, `NaN`, `-Infinity`. A NaN
/// that is not Java's has its bits besides.
#[must_use]
pub fn shown(kind: Kind, bits: u64) -> String {
    match kind {
        Kind::Int => (bits as i32).to_string(),
        Kind::Long => format!("{}L", bits as i64),
        Kind::Float => lettered(decimals::float(bits as u32), 'f', kind, bits, 0x7FC0_0000),
        Kind::Double => lettered(
            decimals::double(bits),
            'd',
            kind,
            bits,
            0x7FF8_0000_0000_0000,
        ),
    }
}

fn lettered(text: String, letter: char, kind: Kind, bits: u64, nan_of_java: u64) -> String {
    match text.as_str() {
        "NaN" if bits != nan_of_java => format!("NaN ({})", digits(kind, bits)),
        "NaN" | "Infinity" | "-Infinity" => text,
        _ => format!("{text}{letter}"),
    }
}

/// A value as a source has it: in decimal where that gives its bits back, or else by its bits.
pub(super) fn said(kind: Kind, bits: u64) -> String {
    let decimal = match kind {
        Kind::Int => (bits as i32).to_string(),
        Kind::Long => (bits as i64).to_string(),
        Kind::Float => format!("{:?}", f32::from_bits(bits as u32)),
        Kind::Double => format!("{:?}", f64::from_bits(bits)),
    };
    if kind.bits(&decimal).is_ok_and(|found| found == bits) {
        return decimal;
    }
    digits(kind, bits)
}

/// The bits: an h, and then 8 or 16 hexadecimal digits.
pub(super) fn digits(kind: Kind, bits: u64) -> String {
    let width = 8 * kind.size();
    format!("h{bits:0width$X}")
}

#[cfg(test)]
mod tests {
    use super::*;

    #[test]
    fn a_value_has_two_texts() {
        for (kind, bits, of_listing, of_source) in [
            (Kind::Int, 0xFFFF_FFFF, "-1", "-1"),
            (Kind::Float, 0x3DCC_CCCD, "0.1f", "0.1"),
            (Kind::Float, 0x8000_0000, "-0.0f", "-0.0"),
            (Kind::Float, 0x3727_C5AC, "1.0E-5f", "1e-5"),
            (Kind::Float, 0x0000_0001, "1.4E-45f", "1e-45"),
            (Kind::Float, 0x7FC0_0000, "NaN", "h7FC00000"),
            (Kind::Float, 0xFFC0_0001, "NaN (hFFC00001)", "hFFC00001"),
            (Kind::Float, 0x7F80_0000, "Infinity", "h7F800000"),
            (Kind::Long, 3_000_000_000, "3000000000L", "3000000000"),
            (Kind::Double, 0x3FD0_0000_0000_0000, "0.25d", "0.25"),
            (
                Kind::Double,
                0xFFF0_0000_0000_0000,
                "-Infinity",
                "hFFF0000000000000",
            ),
            (
                Kind::Double,
                0x7FF0_0000_0000_0001,
                "NaN (h7FF0000000000001)",
                "h7FF0000000000001",
            ),
        ] {
            assert_eq!(shown(kind, bits), of_listing);
            assert_eq!(said(kind, bits), of_source);
            assert_eq!(kind.bits(of_source), Ok(bits));
        }
    }
}
