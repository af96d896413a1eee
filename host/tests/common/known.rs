//! Values of which every notation is known.

use super::random::Random;
use workbook_host::decimals::{double, float};
use workbook_host::shown::Shown;
use workbook_host::Value;

/// A value, of which one bit can be changed.
#[derive(Clone)]
pub struct Known {
    pub value: Option<Value>,
    pub words: Vec<u32>,
}

impl Known {
    /// What stands in a place.
    pub fn of(shown: &Shown) -> Known {
        Known {
            value: shown.value,
            words: shown.words().collect(),
        }
    }

    fn bits(&self) -> u64 {
        let words = self.words.iter().rev();
        words.fold(0, |bits, word| bits << 32 | u64::from(*word))
    }

    /// With one bit changed.
    pub fn changed(&self, random: &mut Random) -> Known {
        let bits = self.bits() ^ 1 << random.below(32 * self.words.len());
        Known {
            value: self.value.map(|value| match value {
                Value::Int(_) => Value::Int(bits as i32),
                Value::Float(_) => Value::Float(bits as u32),
                Value::Reference(_) => Value::Reference(bits as u32),
                Value::Long(_) => Value::Long(bits as i64),
                Value::Double(_) => Value::Double(bits),
                Value::Void => Value::Void,
            }),
            words: [bits as u32, (bits >> 32) as u32][..self.words.len()].to_vec(),
        }
    }

    /// Every notation of it that says its bits.
    pub fn exact(&self) -> Vec<String> {
        let (bits, size) = (self.bits(), 8 * self.words.len());
        let mut all = vec![format!("{bits:0size$X}"), format!("{bits:0size$x}")];
        let (word, long) = (bits as u32, bits as i64);
        if size == 8 {
            all.extend([format!("0x{bits:X}"), format!("0X{bits:x}")]);
        } else {
            all.extend([
                format!("0x{bits:X}L"),
                format!("{long}L"),
                format!("{bits}l"),
            ]);
        }
        match self.value {
            Some(Value::Int(int)) => all.extend([int.to_string(), word.to_string()]),
            Some(Value::Long(_)) => all.extend([long.to_string(), bits.to_string()]),
            Some(Value::Float(_)) => all.extend(floats(word)),
            Some(Value::Double(_)) => all.extend(doubles(bits)),
            Some(Value::Reference(0)) => all.extend(["null".to_string(), "0".to_string()]),
            Some(Value::Reference(_) | Value::Void) => {}
            None => {
                all.extend([(word as i32).to_string(), word.to_string()]);
                all.extend(floats(word));
            }
        }
        all
    }

    /// A notation of it.
    pub fn written(&self, random: &mut Random) -> String {
        let mut all = self.exact();
        match self.value {
            Some(Value::Float(word)) if f32::from_bits(word).is_nan() => all.push("NaN".into()),
            Some(Value::Double(bits)) if f64::from_bits(bits).is_nan() => all.push("NaN".into()),
            _ => {}
        }
        all.swap_remove(random.below(all.len()))
    }
}

fn floats(word: u32) -> Vec<String> {
    let number = f32::from_bits(word);
    if number.is_nan() {
        return vec![];
    }
    if number.is_infinite() {
        return vec![float(word)];
    }
    let mut all = vec![float(word), float(word) + "f", format!("{number:e}F")];
    if number.fract() == 0.0 && number.abs() < 1e9 && word != 0x8000_0000 {
        all.push(format!("{number:.0}"));
    }
    all
}

fn doubles(bits: u64) -> Vec<String> {
    let number = f64::from_bits(bits);
    if number.is_nan() {
        return vec![];
    }
    if number.is_infinite() {
        return vec![double(bits)];
    }
    vec![double(bits), double(bits) + "d", format!("{number:e}")]
}
