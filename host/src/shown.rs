//! Words as the values that their kinds make of them, for showing.

use crate::answers::joined;
use crate::kinds::Kind;
use crate::{decimals, Value};

/// A value in its place, or over its two places.
#[derive(Clone, Debug, PartialEq, Eq)]
#[non_exhaustive]
pub struct Shown {
    /// Its place, or the lower one of two, counted from the first local or from the deepest place of
    /// the operand stack.
    pub place: usize,
    /// The value, where the kind of the word is known.
    pub value: Option<Value>,
    low: u32,
    high: Option<u32>,
}

impl Shown {
    /// How many places it has.
    #[must_use]
    pub fn places(&self) -> usize {
        1 + usize::from(self.high.is_some())
    }

    /// The words in its places, the lower place's first.
    pub fn words(&self) -> impl Iterator<Item = u32> {
        [self.low].into_iter().chain(self.high)
    }
}

/// The values of words that lie side by side: the locals, or the operand stack. A word without a kind
/// is not known.
///
/// ```
/// use workbook_host::kinds::Kind;
/// use workbook_host::{shown, Value};
///
/// let kinds = [Kind::LongLow, Kind::LongHigh, Kind::Unknown];
/// let values: Vec<_> = shown::values(&kinds, &[5, 1, 7]).collect();
/// assert_eq!(values[0].value, Some(Value::Long(0x1_0000_0005)));
/// assert_eq!((values[1].place, values[1].value), (2, None));
/// ```
pub fn values<'a>(kinds: &'a [Kind], words: &'a [u32]) -> impl Iterator<Item = Shown> + 'a {
    let mut place = 0;
    std::iter::from_fn(move || {
        let shown = at(kinds, words, place)?;
        place += shown.places();
        Some(shown)
    })
}

fn at(kinds: &[Kind], words: &[u32], place: usize) -> Option<Shown> {
    let low = *words.get(place)?;
    let kind = |place| kinds.get(place).copied().unwrap_or_default();
    let pair = words.get(place + 1).map(|high| (*high, joined(low, *high)));
    let (value, high) = match (kind(place), kind(place + 1), pair) {
        (Kind::LongLow, Kind::LongHigh, Some((high, bits))) => {
            (Some(Value::Long(bits as i64)), Some(high))
        }
        (Kind::DoubleLow, Kind::DoubleHigh, Some((high, bits))) => {
            (Some(Value::Double(bits)), Some(high))
        }
        (Kind::Int, ..) => (Some(Value::Int(low as i32)), None),
        (Kind::Float, ..) => (Some(Value::Float(low)), None),
        (Kind::Reference, ..) => (Some(Value::Reference(low)), None),
        _ => (None, None),
    };
    Some(Shown {
        place,
        value,
        low,
        high,
    })
}

/// A value as Java writes it: `4`, `3000000000L`, `0.1f`, `1.5`, `null`; a float that is no number
/// without the `f`, and `reference` for a reference that is not null.
///
/// ```
/// use workbook_host::{shown, Value};
///
/// assert_eq!(shown::literal(Value::Float(0x3DCC_CCCD)), "0.1f");
/// ```
#[must_use]
pub fn literal(value: Value) -> String {
    match value {
        Value::Int(int) => int.to_string(),
        Value::Long(long) => format!("{long}L"),
        Value::Float(bits) => {
            let suffix = if f32::from_bits(bits).is_finite() {
                "f"
            } else {
                ""
            };
            decimals::float(bits) + suffix
        }
        Value::Double(bits) => decimals::double(bits),
        Value::Reference(0) => "null".to_string(),
        Value::Reference(_) => "reference".to_string(),
        Value::Void => "void".to_string(),
    }
}

/// The kind of a value by name.
#[must_use]
pub fn kind(value: Value) -> &'static str {
    match value {
        Value::Int(_) => "int",
        Value::Long(_) => "long",
        Value::Float(_) => "float",
        Value::Double(_) => "double",
        Value::Reference(_) => "reference",
        Value::Void => "void",
    }
}

#[cfg(test)]
mod tests {
    use super::*;

    #[test]
    fn values_are_written_as_java_writes_them() {
        for (value, text) in [
            (Value::Int(-1), "-1"),
            (Value::Long(3_000_000_000), "3000000000L"),
            (Value::Float(0x3DCC_CCCD), "0.1f"),
            (Value::Float(0x5015_02F9), "1.0E10f"),
            (Value::Float(0x7FC0_0000), "NaN"),
            (Value::Float(0xFF80_0000), "-Infinity"),
            (Value::Double(0x3FF8_0000_0000_0000), "1.5"),
            (Value::Double(0x7FF0_0000_0000_0000), "Infinity"),
            (Value::Reference(0), "null"),
            (Value::Reference(1), "reference"),
            (Value::Void, "void"),
        ] {
            assert_eq!(literal(value), text);
        }
    }

    #[test]
    fn half_a_value_is_a_word() {
        let kinds = [
            Kind::LongHigh,
            Kind::DoubleLow,
            Kind::LongHigh,
            Kind::DoubleLow,
            Kind::DoubleHigh,
            Kind::LongLow,
        ];
        let shown: Vec<_> = values(&kinds, &[1, 2, 3, 4, 5, 6]).collect();
        let places: Vec<_> = shown.iter().map(|one| (one.place, one.value)).collect();
        let double = Value::Double(0x0000_0005_0000_0004);
        let expected = [
            (0, None),
            (1, None),
            (2, None),
            (3, Some(double)),
            (5, None),
        ];
        assert_eq!(places, expected);
        assert!(shown[3].words().eq([4, 5]));
        // Fewer words than kinds, and fewer kinds than words.
        assert_eq!(values(&[Kind::LongLow, Kind::LongHigh], &[1]).count(), 1);
        assert_eq!(values(&[], &[1, 2]).count(), 2);
    }
}
