//! A key as a page of HTML with its style inside, to print.

use super::format::{placed, sentence, sizes, written, Format, PLACES};
use super::steps::{Ending, Head, Stage, Step, Wrote};
use std::io::{self, Write};
use workbook_host::shown::Shown;

/// A row stays on one sheet of paper, and the head of the table comes again on each.
const STYLE: &str = "\
body { font-family: sans-serif; margin: 1em; }
table { border-collapse: collapse; width: 100%; font-size: 85%; }
th, td { border: 1px solid #888; padding: 0.2em 0.5em; text-align: left; vertical-align: top; }
td.number { text-align: right; }
thead { display: table-header-group; }
tr { break-inside: avoid; }
code { font-family: monospace; }
.value { font-family: monospace; white-space: nowrap; margin-right: 1em; }
.written { font-weight: bold; }
.answer { font-weight: bold; }
@page { margin: 1.5cm; }
";

/// A key as a page of HTML. What a step wrote is bold.
pub struct Html;

impl Format for Html {
    fn head(&mut self, out: &mut dyn Write, head: &Head, start: &Stage) -> io::Result<()> {
        let file = escaped(head.file);
        writeln!(
            out,
            "<!DOCTYPE html>\n<html lang=\"en\">\n<head>\n<meta charset=\"utf-8\">"
        )?;
        writeln!(
            out,
            "<title>Key of {file}</title>\n<style>\n{STYLE}</style>\n</head>"
        )?;
        writeln!(out, "<body>\n<h1>Key of {file}</h1>")?;
        writeln!(out, "<p>{}</p>\n<p>{PLACES}</p>", escaped(&sizes(head)))?;
        write!(
            out,
            "<table>\n<thead>\n<tr><th>step</th><th>offset</th><th>instruction</th>"
        )?;
        write!(
            out,
            "<th>locals after it</th><th>operand stack after it</th>"
        )?;
        writeln!(out, "<th>wrote</th></tr>\n</thead>\n<tbody>")?;
        write!(out, "<tr><td>start</td><td></td><td></td>")?;
        stage(out, start, &Wrote::Nothing)?;
        writeln!(out, "<td></td></tr>")
    }

    fn step(&mut self, out: &mut dyn Write, step: &Step) -> io::Result<()> {
        let (number, offset) = (step.number, step.offset);
        let instruction = escaped(&step.instruction);
        write!(
            out,
            "<tr><td class=\"number\">{number}</td><td class=\"number\">{offset}</td>"
        )?;
        write!(out, "<td><code>{instruction}</code></td>")?;
        stage(out, &step.stage, &step.wrote)?;
        writeln!(out, "<td>{}</td></tr>", written(&step.wrote))
    }

    fn end(&mut self, out: &mut dyn Write, ending: &Ending) -> io::Result<()> {
        let sentence = escaped(&sentence(ending));
        writeln!(
            out,
            "</tbody>\n</table>\n<p class=\"answer\">{sentence}</p>\n</body>\n</html>"
        )
    }
}

fn stage(out: &mut dyn Write, stage: &Stage, wrote: &Wrote) -> io::Result<()> {
    cell(out, &stage.locals, |local| wrote.local(local), "none")?;
    cell(out, &stage.stack, |place| wrote.stack(place), "empty")
}

fn cell(
    out: &mut dyn Write,
    values: &[Shown],
    written: impl Fn(&Shown) -> bool,
    none: &str,
) -> io::Result<()> {
    write!(out, "<td>")?;
    for value in values {
        let class = if written(value) {
            "value written"
        } else {
            "value"
        };
        // A space, so that a line can be broken between two values.
        write!(out, "<span class=\"{class}\">{}</span> ", placed(value))?;
    }
    if values.is_empty() {
        out.write_all(none.as_bytes())?;
    }
    write!(out, "</td>")
}

/// Text that is no markup.
fn escaped(text: &str) -> String {
    let mut escaped = String::new();
    for character in text.chars() {
        match character {
            '&' => escaped += "&amp;",
            '<' => escaped += "&lt;",
            '>' => escaped += "&gt;",
            '"' => escaped += "&quot;",
            '\'' => escaped += "&#39;",
            character if character.is_control() => escaped.push(' '),
            character => escaped.push(character),
        }
    }
    escaped
}

#[cfg(test)]
mod tests {
    use super::*;

    #[test]
    fn markup_is_escaped() {
        let text = "<script>a & \"b\" 'c'\u{7}";
        assert_eq!(
            escaped(text),
            "&lt;script&gt;a &amp; &quot;b&quot; &#39;c&#39; "
        );
    }
}
