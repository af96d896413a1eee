//! A method descriptor as types (JVMS 4.3.3), so that arguments can be read by it. Nothing is
//! accepted here for good: the load judges a sheet's descriptor again.
//!
//! ```
//! use bytecode::descriptor::{self, Type};
//!
//! let add = descriptor::read("(IJ)Z")?;
//! assert_eq!(add.parameters, [Type::Int, Type::Long]);
//! assert_eq!(add.returned, Some(Type::Boolean));
//! # Ok::<(), String>(())
//! ```

use std::fmt;

/// The most words that the parameters of a method take.
const MOST_WORDS: usize = 255;

/// The most dimensions of an array.
const MOST_DIMENSIONS: usize = 255;

/// The type of a parameter or of a returned value.
#[derive(Clone, Debug, PartialEq, Eq)]
pub enum Type {
    /// `Z`.
    Boolean,
    /// `B`.
    Byte,
    /// `C`.
    Char,
    /// `S`.
    Short,
    /// `I`.
    Int,
    /// `J`.
    Long,
    /// `F`.
    Float,
    /// `D`.
    Double,
    /// A class, an interface or an array, by the name that Java has for it: `java.lang.Object`,
    /// `int[]`.
    Reference(String),
}

impl Type {
    /// How many words a value of this type has.
    #[must_use]
    pub fn words(&self) -> usize {
        match self {
            Type::Long | Type::Double => 2,
            _ => 1,
        }
    }
}

/// The name that Java has for the type.
impl fmt::Display for Type {
    fn fmt(&self, f: &mut fmt::Formatter) -> fmt::Result {
        f.write_str(match self {
            Type::Boolean => "boolean",
            Type::Byte => "byte",
            Type::Char => "char",
            Type::Short => "short",
            Type::Int => "int",
            Type::Long => "long",
            Type::Float => "float",
            Type::Double => "double",
            Type::Reference(name) => name,
        })
    }
}

/// What a method takes and what it returns.
#[derive(Clone, Debug, PartialEq, Eq)]
pub struct Descriptor {
    /// The types of its parameters, in order.
    pub parameters: Vec<Type>,
    /// The type that it returns; none for `V`.
    pub returned: Option<Type>,
}

/// Reads a method descriptor.
///
/// # Errors
///
/// A sentence, where the text is no method descriptor or its parameters take more than 255 words.
pub fn read(text: &str) -> Result<Descriptor, String> {
    let found = parts(text).ok_or_else(|| format!("{text} is no method descriptor"))?;
    let words: usize = found.parameters.iter().map(Type::words).sum();
    if words > MOST_WORDS {
        return Err(format!(
            "the parameters take {words} words, and {MOST_WORDS} are the most"
        ));
    }
    Ok(found)
}

fn parts(text: &str) -> Option<Descriptor> {
    let mut rest = text.strip_prefix('(')?;
    let mut parameters = vec![];
    let returned = loop {
        if let Some(returned) = rest.strip_prefix(')') {
            break returned;
        }
        let (parameter, after) = field_type(rest)?;
        parameters.push(parameter);
        rest = after;
    };
    let returned = match returned {
        "V" => None,
        _ => {
            let (returned, after) = field_type(returned)?;
            after.is_empty().then_some(Some(returned))?
        }
    };
    Some(Descriptor {
        parameters,
        returned,
    })
}

/// The field type that a text begins with (JVMS 4.3.2), and what follows it.
fn field_type(text: &str) -> Option<(Type, &str)> {
    let element = text.trim_start_matches('[');
    let dimensions = text.len() - element.len();
    let mut letters = element.chars();
    let letter = letters.next()?;
    let mut rest = letters.as_str();
    let mut found = match letter {
        'Z' => Type::Boolean,
        'B' => Type::Byte,
        'C' => Type::Char,
        'S' => Type::Short,
        'I' => Type::Int,
        'J' => Type::Long,
        'F' => Type::Float,
        'D' => Type::Double,
        'L' => {
            let (name, after) = rest.split_once(';')?;
            if name.contains(['.', '[']) || name.split('/').any(str::is_empty) {
                return None;
            }
            rest = after;
            Type::Reference(name.replace('/', "."))
        }
        _ => return None,
    };
    if dimensions > MOST_DIMENSIONS {
        return None;
    }
    if dimensions > 0 {
        found = Type::Reference(format!("{found}{}", "[]".repeat(dimensions)));
    }
    Some((found, rest))
}

/// The letters of the types of a descriptor's parameters, `L` for an array too, of its bytes as a sheet
/// has them. What a load asks besides of a descriptor is not asked here.
#[must_use]
pub fn letters(descriptor: &[u8]) -> Option<Vec<u8>> {
    let (mut letters, mut rest) = (vec![], descriptor.strip_prefix(b"(")?);
    while !rest.starts_with(b")") {
        let dimensions = rest.iter().take_while(|letter| **letter == b'[').count();
        rest = &rest[dimensions..];
        let (letter, after) = rest.split_first()?;
        rest = match letter {
            b'L' => &after[after.iter().position(|letter| *letter == b';')? + 1..],
            b'B' | b'C' | b'D' | b'F' | b'I' | b'J' | b'S' | b'Z' => after,
            _ => return None,
        };
        letters.push(if dimensions > 0 { b'L' } else { *letter });
    }
    Some(letters)
}

#[cfg(test)]
mod tests {
    use super::*;

    #[test]
    fn each_letter_has_its_type() {
        let all = read("(ZBCSIJFDLjava/lang/Object;[[I[LA;)V").unwrap();
        let names: Vec<String> = all.parameters.iter().map(Type::to_string).collect();
        assert_eq!(
            names.join(" "),
            "boolean byte char short int long float double java.lang.Object int[][] A[]"
        );
        let words: Vec<usize> = all.parameters.iter().map(Type::words).collect();
        assert_eq!(words, [1, 1, 1, 1, 1, 2, 1, 2, 1, 1, 1]);
        assert_eq!(all.returned, None);
        assert_eq!(
            read("()[J").unwrap().returned.unwrap().to_string(),
            "long[]"
        );
    }

    #[test]
    fn what_is_no_descriptor_is_said() {
        let deep = format!("({}I)V", "[".repeat(256));
        let wrong = [
            "",
            "(",
            "()",
            "(V)V",
            "(I",
            "I)V",
            "()VV",
            "()II",
            "(L;)V",
            "(LA)V",
            "(La//b;)V",
            "(La.b;)V",
            "(L[;)V",
            "([)V",
            "()[V",
            "( )V",
            "(i)V",
            &deep,
        ];
        for text in wrong {
            assert_eq!(read(text), Err(format!("{text} is no method descriptor")));
        }
    }

    #[test]
    fn parameters_take_at_most_255_words() {
        let text = |longs: usize| format!("(I{})V", "J".repeat(longs));
        assert_eq!(read(&text(127)).unwrap().parameters.len(), 128);
        let what = "the parameters take 257 words, and 255 are the most";
        assert_eq!(read(&text(128)), Err(what.to_string()));
    }
}
