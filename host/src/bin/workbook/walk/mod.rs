//! `workbook walk`: goes through a method forward and back, by keys in a terminal or by lines.

mod command;
mod course;
mod lines;
mod message;
mod raw;
mod screen;
mod session;
mod terminal;

use crate::failure::{said, Failure};
use crate::method::sheet;
use course::Course;
use session::Session;
use std::io::{self, IsTerminal};
use terminal::Settings;
use workbook_host::Walk;

const USAGE: &str = "usage: workbook walk FILE [METHOD[DESCRIPTOR] ARGUMENT ...]";

/// Walks through the method of a file until the keys end.
///
/// # Errors
///
/// A wrong call or file, a refused sheet, or an input or output that fails. An output that is closed
/// ends the walk without an error.
pub fn run(words: &[String]) -> Result<(), Failure> {
    let (name, method) = file(words)?;
    let method: Vec<&str> = method.iter().map(String::as_str).collect();
    let start = Walk::open_with_log(sheet(name, &method)?, 0)
        .map_err(|refusal| Failure::of_sheet(name, &refusal))?;
    let session = Session::new(Course::new(start));
    let ended = match raw_settings() {
        Some(settings) => raw::walk(session, &settings),
        None => lines::walk(session),
    };
    match ended {
        Err(error) if error.kind() != io::ErrorKind::BrokenPipe => {
            Err(Failure::of_file("the walk ended", said(&error)))
        }
        _ => Ok(()),
    }
}

/// Raw keys where there is a terminal on both sides; a terminal that cannot be set gives lines.
fn raw_settings() -> Option<Settings> {
    let terminals = io::stdin().is_terminal() && io::stdout().is_terminal();
    terminals.then(Settings::raw)?.ok()
}

/// The file of a call, and the words behind it.
fn file(words: &[String]) -> Result<(&str, &[String]), Failure> {
    match words {
        [name, ..] if name == "-" => Err(Failure::Call(format!(
            "the keys come from standard input, so the file needs a name; {USAGE}"
        ))),
        [option, ..] if option.starts_with("--") => Err(Failure::Call(format!(
            "walk has no option {option}; {USAGE}"
        ))),
        [name, method @ ..] => Ok((name, method)),
        [] => Err(Failure::Call(USAGE.to_string())),
    }
}
