//! What is so, as it stands beside an answer that is wrong.

use super::notation::{Given, Place};
use workbook_host::kinds::Kind;
use workbook_host::shown::{literal, Shown};
use workbook_host::{End, Value};

/// The places of values that lie side by side.
pub fn places(values: &[Shown]) -> Vec<Place> {
    let place = |one: &Shown| {
        let kinds = match one.value {
            Some(Value::Int(_)) => [Kind::Int; 2],
            Some(Value::Float(_)) => [Kind::Float; 2],
            Some(Value::Reference(_)) => [Kind::Reference; 2],
            Some(Value::Long(_)) => [Kind::LongLow, Kind::LongHigh],
            Some(Value::Double(_)) => [Kind::DoubleLow, Kind::DoubleHigh],
            Some(Value::Void) | None => [Kind::Unknown; 2],
        };
        let words: Vec<u32> = one.words().collect();
        words
            .into_iter()
            .zip(kinds)
            .map(|(word, kind)| Place { word, kind })
    };
    values.iter().flat_map(place).collect()
}

/// The places of a value that is returned; none for no value.
pub fn returned(value: Value) -> Vec<Place> {
    let one = |kind, word| vec![Place { word, kind }];
    let two = |[low, high]: [Kind; 2], bits: u64| {
        let (low_word, high_word) = (bits as u32, (bits >> 32) as u32);
        [one(low, low_word), one(high, high_word)].concat()
    };
    match value {
        Value::Int(int) => one(Kind::Int, int as u32),
        Value::Float(word) => one(Kind::Float, word),
        Value::Reference(word) => one(Kind::Reference, word),
        Value::Long(long) => two([Kind::LongLow, Kind::LongHigh], long as u64),
        Value::Double(bits) => two([Kind::DoubleLow, Kind::DoubleHigh], bits),
        Value::Void => vec![],
    }
}

/// Why a place is not what is given: `local 1 is 3, not 2`.
pub fn differs(name: &str, values: &[Shown], place: usize, given: &Given) -> String {
    let not = given.text();
    let around = |one: &&Shown| one.place <= place && place < one.place + one.places();
    match values.iter().find(around) {
        None => format!("there is no {name} {place} that could be {not}"),
        Some(one) if one.place == place => {
            let is = value(one.value, &one.words().collect::<Vec<_>>(), given);
            format!("{name} {place} is {is}, not {not}")
        }
        Some(one) => {
            let word = one.words().nth(1).unwrap_or(0);
            let whole = one.value.map(literal).unwrap_or_default();
            format!("{name} {place} is {word:08X}, the high word of {whole}, not {not}")
        }
    }
}

/// A value, with its words where the literal alone does not say why an answer is another one.
pub fn value(value: Option<Value>, words: &[u32], given: &Given) -> String {
    let text = match (value, words) {
        (Some(value), _) => literal(value),
        (None, [word]) if given.is_floating() => literal(Value::Float(*word)),
        (None, [word]) => (*word as i32).to_string(),
        (None, _) => String::new(),
    };
    if given.is_hexadecimal() || value.is_none() || text == "NaN" || text == "reference" {
        let words: Vec<String> = words.iter().map(|word| format!("{word:08X}")).collect();
        format!("{text} ({})", words.join(" "))
    } else {
        text
    }
}

/// What a method does where it ends, before `after 35 steps`.
pub fn ends(end: &End) -> String {
    match end {
        End::Return(_) => "returns".to_string(),
        End::Throw => "throws an exception that nothing catches".to_string(),
        End::Refused(refusal) => format!("is refused with {}", refusal.number()),
        _ => "goes on".to_string(),
    }
}
