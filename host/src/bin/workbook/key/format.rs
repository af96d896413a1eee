//! What all formats of a key have in common.

use super::steps::{Ending, Head, Stage, Step, Wrote};
use std::io::{self, Write};
use std::ops::Range;
use workbook_host::shown::{kind, literal, Shown};
use workbook_host::{End, Value};

/// Said once where a key is for people.
pub const PLACES: &str = "A long or a double takes two places; its words are in the order of the \
                          places, the low one first.";

/// Writes a key, part by part, as it is walked.
pub trait Format {
    /// What stands above the steps, and the stage before the first.
    fn head(&mut self, out: &mut dyn Write, head: &Head, start: &Stage) -> io::Result<()>;

    /// A step.
    fn step(&mut self, out: &mut dyn Write, step: &Step) -> io::Result<()>;

    /// The answer.
    fn end(&mut self, out: &mut dyn Write, ending: &Ending) -> io::Result<()>;
}

/// The sizes and the descriptor of a method.
pub fn sizes(head: &Head) -> String {
    let (stack, locals) = (head.max_stack, head.max_locals);
    let descriptor = head
        .descriptor
        .as_deref()
        .map(|text| format!("descriptor {text}"));
    let descriptor = descriptor.unwrap_or_else(|| "no descriptor".to_string());
    format!("max_stack {stack}, max_locals {locals}, {descriptor}")
}

/// A value with its place and its words: `0: 4 (00000004)`.
pub fn placed(shown: &Shown) -> String {
    let (place, words) = (shown.place, words(shown).join(" "));
    let places = between(&(place..place + shown.places()));
    match shown.value {
        Some(value) => format!("{places}: {} ({words})", literal(value)),
        None => format!("{places}: {words}"),
    }
}

/// The words of a value in hexadecimal.
pub fn words(shown: &Shown) -> Vec<String> {
    shown.words().map(|word| format!("{word:08X}")).collect()
}

/// What a step wrote, in words.
pub fn written(wrote: &Wrote) -> String {
    match wrote {
        Wrote::Nothing => "nothing".to_string(),
        Wrote::Locals(places) => format!("local {}", between(places)),
        Wrote::Stack(places) => format!("stack {}", between(places)),
    }
}

/// The first place and the last one, where there are more than one.
fn between(places: &Range<usize>) -> String {
    match places.len() {
        0 | 1 => places.start.to_string(),
        _ => format!("{}-{}", places.start, places.end - 1),
    }
}

/// The answer as a sentence.
pub fn sentence(ending: &Ending) -> String {
    let Ending {
        steps,
        offset,
        instruction,
        end,
    } = ending;
    let taken = match steps {
        1 => "1 step".to_string(),
        _ => format!("{steps} steps"),
    };
    let at = format!("answer after {taken}: {instruction} at offset {offset}");
    match end {
        End::Return(Value::Void) => format!("{at} returns nothing"),
        End::Return(value) => format!("{at} returns {} {}", kind(*value), returned(*value)),
        End::Throw => format!("{at} throws an ArithmeticException that nothing catches"),
        End::Refused(refusal) => format!("{at} is refused with {refusal}"),
        _ => {
            let were = if *steps == 1 { "was" } else { "were" };
            format!(
                "no answer yet: {taken} {were} taken and more would follow, \
                 next {instruction} at offset {offset}"
            )
        }
    }
}

/// A value that is returned, with its bits.
fn returned(value: Value) -> String {
    let literal = literal(value);
    match bits(value) {
        Some(bits) => format!("{literal} ({bits})"),
        None => literal,
    }
}

/// The bits of a value in hexadecimal, of a long or a double as one number.
pub fn bits(value: Value) -> Option<String> {
    Some(match value {
        Value::Int(int) => format!("{int:08X}"),
        Value::Float(word) | Value::Reference(word) => format!("{word:08X}"),
        Value::Long(long) => format!("{long:016X}"),
        Value::Double(bits) => format!("{bits:016X}"),
        Value::Void => return None,
    })
}
