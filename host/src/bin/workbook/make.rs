//! `workbook make`: the sheet of a source, or of a method of a class file.

mod output;

use crate::failure::Failure;
use crate::input::{self, Input};
use crate::make_class::make_class;
use output::Output;
use std::fs;
use std::io::{self, IsTerminal};
use workbook_host::suggestion::closest;
use workbook_host::{source, Walk};

const USAGE: &str =
    "usage: workbook make FILE [METHOD[DESCRIPTOR] ARGUMENT ...] [-o SHEET] [--refused]";

/// Makes a sheet and writes it.
///
/// # Errors
///
/// Where the call or the file is wrong, or the library refuses the sheet.
pub fn make(words: &[String]) -> Result<(), Failure> {
    let call = Call::read(words)?;
    let output = Output::new(call.output, io::stdout().is_terminal())?;
    let sheet = match input::read(call.file)? {
        Input::Source(text) => {
            call.has_file_alone()?;
            of_source(call.file, &text)?
        }
        Input::Class(bytes) => make_class(call.file, &bytes, &call.method)?,
        Input::Sheet(_) => return Err(Failure::of_file(call.file, "is a sheet already")),
    };
    if !call.refused {
        accepted(call.file, &sheet)?;
    }
    call.spares_its_file()?;
    output.write(&sheet)
}

/// The sheet of a source, which a file of this name has.
///
/// # Errors
///
/// Where the source is wrong, with the line.
pub fn of_source(name: &str, text: &str) -> Result<Vec<u8>, Failure> {
    source::sheet(text).map_err(|error| match error.line() {
        Some(line) => Failure::of_file(&format!("{name}:{line}"), error.what()),
        None => Failure::of_file(name, error.what()),
    })
}

/// Asks the library whether it takes a sheet.
fn accepted(name: &str, sheet: &[u8]) -> Result<(), Failure> {
    match Walk::open(sheet.to_vec()) {
        Ok(_) => Ok(()),
        Err(refusal) => Err(Failure::of_sheet(name, &refusal)),
    }
}

/// What the words of a call say.
#[derive(Debug, PartialEq, Eq)]
struct Call<'a> {
    file: &'a str,
    /// The words behind the file: a method and its arguments, which may begin with a sign.
    method: Vec<&'a str>,
    output: Option<&'a str>,
    refused: bool,
}

impl<'a> Call<'a> {
    fn read(words: &'a [String]) -> Result<Call<'a>, Failure> {
        let (mut files, mut output, mut refused) = (vec![], None, false);
        let mut words = words.iter().map(String::as_str);
        while let Some(word) = words.next() {
            match word {
                "-o" if output.is_some() => return Err(wrong("-o stands twice")),
                "-o" => {
                    let name = words.next().filter(|name| !name.is_empty());
                    output = Some(name.ok_or_else(|| wrong("-o takes the name of a file"))?);
                }
                "--refused" => refused = true,
                _ if word.starts_with("--") => return Err(no_option(word)),
                _ if word.starts_with('-') && word != "-" && files.is_empty() => {
                    return Err(no_option(word));
                }
                _ => files.push(word),
            }
        }
        let Some((file, method)) = files.split_first() else {
            return Err(Failure::Call(USAGE.to_string()));
        };
        Ok(Call {
            file,
            method: method.to_vec(),
            output,
            refused,
        })
    }

    /// Refuses words behind a source.
    fn has_file_alone(&self) -> Result<(), Failure> {
        match self.method.first() {
            None => Ok(()),
            Some(word) if word.starts_with('-') => Err(no_option(word)),
            Some(word) => {
                let what = format!("is a source, and no word stands behind it, as {word} does");
                Err(Failure::of_file(self.file, what))
            }
        }
    }

    /// Refuses an output that is the file itself.
    fn spares_its_file(&self) -> Result<(), Failure> {
        let path = |name: &str| fs::canonicalize(name).ok();
        let output = self.output.and_then(path);
        if output.is_some() && output == path(self.file) {
            let what = "the sheet would be written over this file";
            return Err(Failure::of_file(self.file, what));
        }
        Ok(())
    }
}

fn wrong(what: &str) -> Failure {
    Failure::Call(format!("{what}; {USAGE}"))
}

fn no_option(word: &str) -> Failure {
    let question = match closest(word, ["--refused"]) {
        Some(option) => format!("; did you mean {option}?"),
        None => format!("; {USAGE}"),
    };
    Failure::Call(format!("make has no option {word}{question}"))
}

#[cfg(test)]
mod tests {
    use super::*;

    fn words(call: &str) -> Vec<String> {
        call.split_whitespace().map(str::to_string).collect()
    }

    #[test]
    fn an_argument_of_a_method_may_begin_with_a_sign() {
        let words = words("--refused A.class sum(IF)I -1 -o a.sheet -Infinity");
        let call = Call {
            file: "A.class",
            method: vec!["sum(IF)I", "-1", "-Infinity"],
            output: Some("a.sheet"),
            refused: true,
        };
        assert_eq!(Call::read(&words), Ok(call));
    }

    #[test]
    fn standard_input_is_a_file() {
        let words = words("-");
        let call = Call {
            file: "-",
            method: vec![],
            output: None,
            refused: false,
        };
        assert_eq!(Call::read(&words), Ok(call));
    }
}
