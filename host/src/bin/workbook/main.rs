//! `workbook`: what a teacher does with a method, in one program.

#![forbid(unsafe_code)]

mod failure;
mod input;
mod key;
mod make;
mod make_class;
mod mark;
mod method;
mod opcodes;
mod output;
mod show;
mod walk;

use failure::Failure;
use std::process::ExitCode;
use std::{env, ffi::OsString};
use workbook_host::suggestion::closest;

const USAGE: &str = "usage: workbook COMMAND ...

    make FILE [-o SHEET]     the sheet of a source
    make FILE METHOD[DESCRIPTOR] ARGUMENT ... [-o SHEET]
                             the sheet of a static method in a class file
    show FILE [--source]     the listing of a source or a sheet, or its source
    key FILE [--steps N] [--format text|markdown|json|html]
                             the answer key of a source or a sheet: every step, and the answer
    mark FILE ANSWERS        whether a learner's answers are right, or the first wrong place
    opcodes                  the page of opcodes, with their names
    walk FILE                goes through a source or a sheet, forward and back, by keys

Behind a class file, show, key, walk and mark take METHOD[DESCRIPTOR] ARGUMENT ... as make does.";

const COMMANDS: [&str; 6] = ["key", "make", "mark", "opcodes", "show", "walk"];

fn main() -> ExitCode {
    let words: Result<Vec<String>, OsString> =
        env::args_os().skip(1).map(OsString::into_string).collect();
    let done = match words {
        Ok(words) => command(&words),
        Err(word) => Err(Failure::Call(format!(
            "{} is no text in UTF-8",
            word.to_string_lossy()
        ))),
    };
    match done {
        Ok(()) => ExitCode::SUCCESS,
        Err(failure) => {
            eprintln!("{failure}");
            failure.status()
        }
    }
}

/// Does what the words of a call say.
fn command(words: &[String]) -> Result<(), Failure> {
    match words.first().map(String::as_str) {
        Some("key") => key::run(&words[1..]),
        Some("make") => make::make(&words[1..]),
        Some("mark") => mark::run(&words[1..]),
        Some("opcodes") => opcodes::opcodes(&words[1..]),
        Some("show") => show::show(&words[1..]),
        Some("walk") => walk::run(&words[1..]),
        Some(word) => Err(Failure::Call(match closest(word, COMMANDS) {
            Some(name) => format!("there is no command {word}; did you mean {name}?"),
            None => format!("there is no command {word}; {USAGE}"),
        })),
        None => Err(Failure::Call(USAGE.to_string())),
    }
}
