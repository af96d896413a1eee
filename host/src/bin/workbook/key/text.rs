//! A key as text.

use super::format::{placed, sentence, sizes, written, Format, PLACES};
use super::steps::{Ending, Head, Stage, Step};
use std::io::{self, Write};
use workbook_host::shown::Shown;

/// Where a line is broken between two values.
const WIDTH: usize = 100;

/// What values begin under, after a label.
const INDENT: &str = "          ";

/// A key as text: a few lines for a step.
pub struct Text;

impl Format for Text {
    fn head(&mut self, out: &mut dyn Write, head: &Head, start: &Stage) -> io::Result<()> {
        writeln!(out, "key of {}", head.file)?;
        writeln!(out, "{}", sizes(head))?;
        writeln!(out, "{PLACES}\n\nstart")?;
        stage(out, start)
    }

    fn step(&mut self, out: &mut dyn Write, step: &Step) -> io::Result<()> {
        let (number, offset, instruction) = (step.number, step.offset, &step.instruction);
        writeln!(out, "\nstep {number}  offset {offset}  {instruction}")?;
        stage(out, &step.stage)?;
        writeln!(out, "  wrote   {}", written(&step.wrote))
    }

    fn end(&mut self, out: &mut dyn Write, ending: &Ending) -> io::Result<()> {
        writeln!(out, "\n{}", sentence(ending))
    }
}

fn stage(out: &mut dyn Write, stage: &Stage) -> io::Result<()> {
    list(out, "  locals  ", &stage.locals, "none")?;
    list(out, "  stack   ", &stage.stack, "empty")
}

/// Values one after the other, on as many lines as they need.
fn list(out: &mut dyn Write, label: &str, values: &[Shown], none: &str) -> io::Result<()> {
    out.write_all(label.as_bytes())?;
    if values.is_empty() {
        return writeln!(out, "{none}");
    }
    let mut column = label.len();
    for (index, value) in values.iter().enumerate() {
        let text = placed(value);
        if index > 0 && column + 2 + text.len() > WIDTH {
            write!(out, "\n{INDENT}")?;
            column = INDENT.len();
        } else if index > 0 {
            out.write_all(b"  ")?;
            column += 2;
        }
        out.write_all(text.as_bytes())?;
        column += text.len();
    }
    writeln!(out)
}
