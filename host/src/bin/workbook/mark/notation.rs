//! A value as a learner writes it, and whether words are that value.

use bytecode::descriptor::Type;
use bytecode::literals;
use workbook_host::kinds::Kind;
use workbook_host::suggestion::closest;

/// How many characters of a word stand in a sentence.
const MOST: usize = 40;

/// A place with its word, and what is known of it.
#[derive(Clone, Copy, Debug, PartialEq, Eq)]
pub struct Place {
    /// The word.
    pub word: u32,
    /// Its kind.
    pub kind: Kind,
}

/// A value that is given: its text, and what it may be.
#[derive(Clone, Debug, PartialEq, Eq)]
pub struct Given {
    text: String,
    readings: Vec<Reading>,
}

/// One of the things that a text may be. Of one place the upper bits are 0.
#[derive(Clone, Copy, Debug, PartialEq, Eq)]
struct Reading {
    sort: Sort,
    places: usize,
    bits: u64,
}

/// Which kinds a reading is for.
#[derive(Clone, Copy, Debug, PartialEq, Eq)]
enum Sort {
    /// All of them: the text itself says what its bits are.
    Bits,
    Int,
    Float,
    Long,
    Double,
}

impl Given {
    /// The value of a text.
    ///
    /// # Errors
    ///
    /// A sentence, where it is none.
    pub fn of(text: &str) -> Result<Given, String> {
        let readings = readings(text);
        if readings.is_empty() {
            return Err(no_value(text));
        }
        Ok(Given {
            text: cut(text),
            readings,
        })
    }

    /// The text, cut where it is long.
    pub fn text(&self) -> &str {
        &self.text
    }

    /// Whether the text says only bits.
    pub fn is_hexadecimal(&self) -> bool {
        let digits = self.text.trim_start_matches(['-', '+']);
        digits.starts_with("0x") || digits.starts_with("0X") || !bare(&self.text).is_empty()
    }

    /// Whether the text can be a float and no int.
    pub fn is_floating(&self) -> bool {
        let marks = ['.', 'e', 'E', 'f', 'F', 'N', 'I'];
        !self.is_hexadecimal() && self.text.contains(marks)
    }

    /// How many of the places it fills, where they begin with it. Where nothing is known it fills one
    /// place rather than two.
    pub fn fills(&self, places: &[Place]) -> Option<usize> {
        let right = self.readings.iter().filter(|one| one.begins(places));
        right.map(|one| one.places).min()
    }

    /// Whether the places are this value as a whole.
    pub fn is(&self, places: &[Place]) -> bool {
        let mut whole = self.readings.iter();
        whole.any(|one| one.places == places.len() && one.begins(places))
    }
}

impl Reading {
    fn begins(&self, places: &[Place]) -> bool {
        let Some(own) = places.get(..self.places) else {
            return false;
        };
        let unknown = own.iter().all(|place| place.kind == Kind::Unknown);
        let kind = own.first().map(|place| place.kind).unwrap_or_default();
        let allowed = match self.sort {
            Sort::Bits => true,
            Sort::Int => !matches!(kind, Kind::Float | Kind::LongLow | Kind::DoubleLow),
            Sort::Float => unknown || kind == Kind::Float,
            Sort::Long => unknown || kind == Kind::LongLow,
            Sort::Double => unknown || kind == Kind::DoubleLow,
        };
        let joined = |bits, place: &Place| bits << 32 | u64::from(place.word);
        let bits = own.iter().rev().fold(0, joined);
        allowed && (bits == self.bits || self.is_nan(self.bits) && self.is_nan(bits))
    }

    /// Whether bits are a NaN of this sort: the word NaN stands for all of them.
    fn is_nan(&self, bits: u64) -> bool {
        match self.sort {
            Sort::Float => f32::from_bits(bits as u32).is_nan(),
            Sort::Double => f64::from_bits(bits).is_nan(),
            _ => false,
        }
    }
}

/// All that a text may be.
fn readings(text: &str) -> Vec<Reading> {
    let bare = bare(text);
    if text.starts_with('0') && !bare.is_empty() {
        return bare;
    }
    let unsigned = text.strip_prefix(['-', '+']).unwrap_or(text);
    let found = if text == "null" {
        vec![of_words(Sort::Bits, &[0])]
    } else if ["0x", "0X", "0b", "0B"]
        .iter()
        .any(|one| unsigned.starts_with(one))
    {
        of_digits(text)
    } else {
        match unsigned.as_bytes().last() {
            Some(b'l' | b'L') => read(Sort::Bits, &Type::Long, text),
            Some(b'f' | b'F') => read(Sort::Bits, &Type::Float, text),
            Some(b'd' | b'D') => read(Sort::Bits, &Type::Double, text),
            _ => [
                read(Sort::Int, &Type::Int, text),
                read(Sort::Float, &Type::Float, text),
                read(Sort::Long, &Type::Long, text),
                read(Sort::Double, &Type::Double, text),
            ]
            .concat(),
        }
    };
    [bare, found].concat()
}

/// Eight or sixteen hexadecimal digits without a mark, as a key has them.
fn bare(text: &str) -> Vec<Reading> {
    let digits = text.bytes().all(|digit| digit.is_ascii_hexdigit());
    let bits = u64::from_str_radix(text, 16).ok().filter(|_| digits);
    match (bits, text.len()) {
        (Some(bits), 8) => vec![of_words(Sort::Bits, &[bits as u32])],
        (Some(bits), 16) => vec![of_words(Sort::Bits, &[bits as u32, (bits >> 32) as u32])],
        _ => vec![],
    }
}

/// Hexadecimal or binary digits: one word where they fit in it. A long may have few of them.
fn of_digits(text: &str) -> Vec<Reading> {
    let word = read(Sort::Bits, &Type::Int, text);
    let sort = if word.is_empty() {
        Sort::Bits
    } else {
        Sort::Long
    };
    [word, read(sort, &Type::Long, text)].concat()
}

/// A literal of a type, or an integer without a sign that has the highest bit.
fn read(sort: Sort, of: &Type, text: &str) -> Vec<Reading> {
    let words = literals::words(of, text).ok();
    let words = words.or_else(|| highest(of, text));
    let one = words.map(|words| of_words(sort, &words));
    one.into_iter().collect()
}

fn highest(of: &Type, text: &str) -> Option<Vec<u32>> {
    let digits = text.strip_suffix(['l', 'L']).unwrap_or(text);
    // Java's literals of this form are octal, and are read already.
    if digits.starts_with('0') {
        return None;
    }
    match of {
        Type::Int => Some(vec![text.parse().ok()?]),
        Type::Long => {
            let long: u64 = digits.parse().ok()?;
            Some(vec![long as u32, (long >> 32) as u32])
        }
        _ => None,
    }
}

fn of_words(sort: Sort, words: &[u32]) -> Reading {
    Reading {
        sort,
        places: words.len(),
        bits: words
            .iter()
            .rev()
            .fold(0, |bits, word| bits << 32 | u64::from(*word)),
    }
}

fn no_value(text: &str) -> String {
    if text.is_empty() {
        return "a value is missing".to_string();
    }
    let shown = cut(text);
    if text.starts_with('0') && text.bytes().all(|digit| digit.is_ascii_digit()) {
        return format!("{shown} is no value: a number that begins with 0 is octal");
    }
    match closest(text, ["Infinity", "-Infinity", "NaN", "null"]) {
        Some(word) => format!("{shown} is no value; did you mean {word}?"),
        None => format!("{shown} is no value, as 3, 0x1F, 0.1f, 5L, 0.25, NaN and null are"),
    }
}

/// A word as it stands in a sentence: cut where it is long, and without what a terminal would obey.
pub fn cut(word: &str) -> String {
    let printable = |c: char| if c.is_control() { '?' } else { c };
    let mut text: String = word.chars().take(MOST).map(printable).collect();
    if word.chars().nth(MOST).is_some() {
        text += "...";
    }
    text
}
