//! A key in Markdown: a table for the method.

use super::format::{placed, sentence, sizes, written, Format, PLACES};
use super::steps::{Ending, Head, Stage, Step, Wrote};
use std::io::{self, Write};
use workbook_host::shown::Shown;

/// A key in Markdown. What a step wrote is bold.
pub struct Markdown;

impl Format for Markdown {
    fn head(&mut self, out: &mut dyn Write, head: &Head, start: &Stage) -> io::Result<()> {
        writeln!(out, "# Key of {}\n", escaped(head.file))?;
        writeln!(out, "{}\n\n{PLACES}\n", escaped(&sizes(head)))?;
        writeln!(
            out,
            "| step | offset | instruction | locals after it | operand stack after it | wrote |"
        )?;
        writeln!(out, "| ---: | ---: | --- | --- | --- | --- |")?;
        let (locals, stack) = cells(start, &Wrote::Nothing);
        writeln!(out, "| start | | | {locals} | {stack} | |")
    }

    fn step(&mut self, out: &mut dyn Write, step: &Step) -> io::Result<()> {
        let (number, offset, wrote) = (step.number, step.offset, written(&step.wrote));
        let instruction = escaped(&step.instruction);
        let (locals, stack) = cells(&step.stage, &step.wrote);
        writeln!(
            out,
            "| {number} | {offset} | {instruction} | {locals} | {stack} | {wrote} |"
        )
    }

    fn end(&mut self, out: &mut dyn Write, ending: &Ending) -> io::Result<()> {
        writeln!(out, "\n{}", escaped(&sentence(ending)))
    }
}

/// The cells of the locals and of the operand stack.
fn cells(stage: &Stage, wrote: &Wrote) -> (String, String) {
    let locals = stage
        .locals
        .iter()
        .map(|local| cell(local, wrote.local(local)));
    let stack = stage
        .stack
        .iter()
        .map(|place| cell(place, wrote.stack(place)));
    let joined = |values: Vec<String>, none: &str| match values.is_empty() {
        true => none.to_string(),
        false => values.join(", "),
    };
    (
        joined(locals.collect(), "none"),
        joined(stack.collect(), "empty"),
    )
}

fn cell(shown: &Shown, written: bool) -> String {
    let text = placed(shown);
    if written {
        format!("**{text}**")
    } else {
        text
    }
}

/// Text that is no markup, on one line.
fn escaped(text: &str) -> String {
    let mut escaped = String::new();
    for character in text.chars() {
        match character {
            '\\' | '`' | '*' | '_' | '{' | '}' | '[' | ']' | '<' | '>' | '#' | '|' | '&' | '~' => {
                escaped.extend(['\\', character]);
            }
            character if character.is_control() => escaped.push(' '),
            character => escaped.push(character),
        }
    }
    escaped
}

#[cfg(test)]
mod tests {
    use super::*;

    #[test]
    fn markup_is_escaped() {
        assert_eq!(escaped("a_b|c*\n`<i>`"), "a\\_b\\|c\\* \\`\\<i\\>\\`");
        assert_eq!(escaped("(IJ)B 4, 1.0E-5"), "(IJ)B 4, 1.0E-5");
    }
}
