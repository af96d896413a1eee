//! The lines of a source before the one that says code.

use super::{constant, kind_of, number, MOST};
use crate::error::shown;
use crate::instructions::of_name;
use crate::suggestion::question;

/// The words that a line begins with, the one with code too.
pub(super) const FIRST_WORDS: [&str; 7] = [
    "max_stack",
    "max_locals",
    "descriptor",
    "constant",
    "handler",
    "argument",
    "code",
];

/// What these lines say. What stands in one line only has the line's number with it.
#[derive(Default)]
pub(super) struct Before<'a> {
    max_stack: Option<(usize, u16)>,
    max_locals: Option<(usize, u16)>,
    descriptor: Option<(usize, &'a str)>,
    /// The records.
    pub(super) constants: Vec<u8>,
    /// The words of each, with its line.
    pub(super) handlers: Vec<(usize, [&'a str; 4])>,
    pub(super) arguments: Vec<u32>,
}

impl<'a> Before<'a> {
    /// Reads a line that has a word.
    pub(super) fn read(&mut self, line: usize, text: &'a str) -> Result<(), String> {
        let words: Vec<&str> = text.split_whitespace().collect();
        match words[..] {
            [name @ "max_stack", size] => {
                once(&mut self.max_stack, name, line, number(name, size)?)
            }
            [name @ "max_locals", size] => {
                once(&mut self.max_locals, name, line, number(name, size)?)
            }
            [name @ "descriptor", text] if text.len() <= MOST => {
                once(&mut self.descriptor, name, line, text)
            }
            ["descriptor", _] => Err(format!("the descriptor has more than {MOST} bytes")),
            ["constant", index, kind, value] => {
                self.constants.extend(constant(index, kind, value)?);
                Ok(())
            }
            ["handler", start, end, at, catch_type] => {
                self.handlers.push((line, [start, end, at, catch_type]));
                Ok(())
            }
            ["argument", kind, value] => self.argument(kind, value),
            _ => Err(wrong_line(&words)),
        }
    }

    fn argument(&mut self, kind: &str, value: &str) -> Result<(), String> {
        let kind = kind_of(kind, "int, long, float and double")?;
        self.arguments.extend(kind.words(value)?);
        let most = MOST / 4;
        if self.arguments.len() > most {
            return Err(format!("the arguments have more than {most} words"));
        }
        Ok(())
    }

    /// `max_stack` and `max_locals`, which every method has.
    pub(super) fn sizes(&self) -> Result<[u16; 2], String> {
        let size = |said: Option<(usize, u16)>, name: &str| {
            let size = said.map(|(_, size)| size);
            size.ok_or_else(|| format!("there is no line with {name} before code"))
        };
        Ok([
            size(self.max_stack, "max_stack")?,
            size(self.max_locals, "max_locals")?,
        ])
    }

    pub(super) fn descriptor(&self) -> Option<&'a str> {
        self.descriptor.map(|(_, text)| text)
    }
}

/// Takes down what stands in one line only.
fn once<T>(place: &mut Option<(usize, T)>, name: &str, line: usize, said: T) -> Result<(), String> {
    match place {
        Some((first, _)) => Err(format!("{name} stands twice, in lines {first} and {line}")),
        None => {
            *place = Some((line, said));
            Ok(())
        }
    }
}

/// What is wrong with a line that is none of them.
fn wrong_line(words: &[&str]) -> String {
    let first = words.first().copied().unwrap_or_default();
    let what = match first {
        "max_stack" | "max_locals" => "takes one number",
        "descriptor" => "takes one word, as (IJ)B",
        "constant" => "takes an index, a kind and a value, as constant 1 int 5",
        "handler" => "takes a start, an end, a handler and a type, as handler try end caught any",
        "argument" => "takes a kind and a value, as argument int 5",
        "code" => "stands alone in its line, and the instructions below it",
        name if of_name(name).is_some() || name.ends_with(':') => {
            "stands below a line that says code"
        }
        name => {
            let names = FIRST_WORDS.into_iter().chain(["bytes"]);
            return format!(
                "no line begins with {}{}",
                shown(name),
                question(name, names)
            );
        }
    };
    format!("{} {what}", shown(first))
}
