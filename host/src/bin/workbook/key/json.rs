//! A key as one JSON object, with a list of steps.

use super::format::{bits, words, Format};
use super::steps::{Ending, Head, Stage, Step, Wrote};
use std::fmt::Write as _;
use std::io::{self, Write};
use workbook_host::shown::{kind, literal, Shown};
use workbook_host::{End, Value};

/// A key as JSON. Values are strings, because a long does not fit the numbers that many readers have,
/// and a NaN is no number of JSON at all.
#[derive(Default)]
pub struct Json {
    has_steps: bool,
}

impl Format for Json {
    fn head(&mut self, out: &mut dyn Write, head: &Head, start: &Stage) -> io::Result<()> {
        let descriptor = head.descriptor.as_deref().map(string);
        writeln!(out, "{{\"file\": {},", string(head.file))?;
        writeln!(out, "\"max_stack\": {},", head.max_stack)?;
        writeln!(out, "\"max_locals\": {},", head.max_locals)?;
        writeln!(
            out,
            "\"descriptor\": {},",
            descriptor.as_deref().unwrap_or("null")
        )?;
        writeln!(out, "\"start\": {{{}}},", stage(start))?;
        write!(out, "\"steps\": [")
    }

    fn step(&mut self, out: &mut dyn Write, step: &Step) -> io::Result<()> {
        let comma = if self.has_steps { ",\n" } else { "\n" };
        self.has_steps = true;
        let (number, offset) = (step.number, step.offset);
        let instruction = string(&step.instruction);
        write!(
            out,
            "{comma}{{\"step\": {number}, \"offset\": {offset}, \"instruction\": {instruction}, "
        )?;
        write!(
            out,
            "{}, \"wrote\": {}}}",
            stage(&step.stage),
            wrote(&step.wrote)
        )
    }

    fn end(&mut self, out: &mut dyn Write, ending: &Ending) -> io::Result<()> {
        let Ending {
            steps,
            offset,
            instruction,
            end,
        } = ending;
        writeln!(
            out,
            "\n],\n\"answer\": {{\"end\": {}, \"steps\": {steps},",
            answer(end)
        )?;
        writeln!(
            out,
            "\"offset\": {offset}, \"instruction\": {}}}}}",
            string(instruction)
        )
    }
}

/// What is answered: its name, then what goes with it.
fn answer(end: &End) -> String {
    match end {
        End::Return(Value::Void) => "\"return\", \"kind\": \"void\"".to_string(),
        End::Return(value) => {
            let (kind, value, bits) = (kind(*value), literal(*value), bits(*value));
            let bits = bits.unwrap_or_default();
            format!(
                "\"return\", \"kind\": \"{kind}\", \"value\": \"{value}\", \"bits\": \"{bits}\""
            )
        }
        End::Throw => "\"exception\", \"exception\": \"ArithmeticException\"".to_string(),
        End::Refused(refusal) => {
            let (number, sentence) = (refusal.number(), string(refusal.sentence()));
            format!("\"refused\", \"number\": {number}, \"sentence\": {sentence}")
        }
        _ => "\"stopped\"".to_string(),
    }
}

fn stage(stage: &Stage) -> String {
    format!(
        "\"locals\": {}, \"stack\": {}",
        list(&stage.locals),
        list(&stage.stack)
    )
}

fn list(values: &[Shown]) -> String {
    let values: Vec<String> = values.iter().map(value).collect();
    format!("[{}]", values.join(", "))
}

fn value(shown: &Shown) -> String {
    let (kind, literal) = match shown.value {
        Some(value) => (
            format!("\"{}\"", kind(value)),
            format!("\"{}\"", literal(value)),
        ),
        None => ("null".to_string(), "null".to_string()),
    };
    let (place, words) = (shown.place, words(shown).join("\", \""));
    format!(
        "{{\"place\": {place}, \"kind\": {kind}, \"value\": {literal}, \"words\": [\"{words}\"]}}"
    )
}

fn wrote(wrote: &Wrote) -> String {
    let (part, places) = match wrote {
        Wrote::Nothing => return "null".to_string(),
        Wrote::Locals(places) => ("locals", places),
        Wrote::Stack(places) => ("stack", places),
    };
    let (place, places) = (places.start, places.len());
    format!("{{\"part\": \"{part}\", \"place\": {place}, \"places\": {places}}}")
}

/// A string of JSON.
fn string(text: &str) -> String {
    let mut quoted = String::from("\"");
    for character in text.chars() {
        match character {
            '"' | '\\' => quoted.extend(['\\', character]),
            character if character.is_control() => {
                // A String takes everything that is written.
                let _ = write!(quoted, "\\u{:04x}", u32::from(character));
            }
            character => quoted.push(character),
        }
    }
    quoted + "\""
}

#[cfg(test)]
mod tests {
    use super::*;

    #[test]
    fn strings_are_escaped() {
        let text = "a\"b\\c\n\u{7F}\u{9F}ä";
        assert_eq!(string(text), "\"a\\\"b\\\\c\\u000a\\u007f\\u009fä\"");
    }
}
