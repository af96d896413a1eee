//! What is worked out by hand of floats and doubles. Sums, products, quotients and the other
//! conversions are the processor's; the vectors of exact arithmetic judge those (tests/arithmetic.rs).

/// The bits of a float; every NaN that is made is the fixed one.
pub fn float_bits(value: f32) -> u32 {
    if value.is_nan() {
        0x7FC0_0000
    } else {
        value.to_bits()
    }
}

/// The bits of a double.
pub fn double_bits(value: f64) -> u64 {
    if value.is_nan() {
        0x7FF8_0000_0000_0000
    } else {
        value.to_bits()
    }
}

/// A long as a float, rounded once. Rust's `as` would do, but valgrind rounds it twice, by way of a
/// double. Here the double is exact, and its last bit tells whether there was more.
pub fn float_of(long: i64) -> f32 {
    let magnitude = long.unsigned_abs();
    let kept = magnitude >> 11 | u64::from(magnitude << 53 != 0);
    let rounded = if magnitude >> 53 == 0 {
        magnitude as f64 as f32
    } else {
        kept as f64 as f32 * 2048.0
    };
    if long < 0 {
        -rounded
    } else {
        rounded
    }
}

/// The remainder of a division that truncates, which is exact. It is worked out in whole numbers,
/// because `%` calls the same C function as the library. A float's remainder is a float.
pub fn remainder(one: f64, other: f64) -> f64 {
    if one.is_nan() || other.is_nan() || one.is_infinite() || other == 0.0 {
        return f64::NAN;
    }
    if other.is_infinite() {
        return one;
    }
    // A magnitude is a whole number of 53 bits, times 2 to the power of its exponent less 1075.
    let split = |value: f64| {
        let (exponent, fraction) = (value.to_bits() >> 52 & 2047, value.to_bits() << 12 >> 12);
        if exponent == 0 {
            (fraction, 1)
        } else {
            (fraction | 1 << 52, exponent)
        }
    };
    let ((mut left, mut exponent), (divisor, least)) = (split(one), split(other));
    if exponent < least {
        // The divisor is then not subnormal, and so the greater one.
        return one;
    }
    left %= divisor;
    while exponent > least {
        left = (left << 1) % divisor;
        exponent -= 1;
    }
    while left != 0 && left >> 52 == 0 && exponent > 1 {
        left <<= 1;
        exponent -= 1;
    }
    let subnormal = left >> 52 == 0;
    let bits = left << 12 >> 12 | if subnormal { 0 } else { exponent << 52 };
    f64::from_bits(bits).copysign(one)
}
