//! Why a command stops, and the exit status that goes with it.

use std::process::ExitCode;
use std::{fmt, io};
use workbook_host::Refusal;

/// What stops a command. It is told as one sentence on standard error.
#[derive(Debug, PartialEq, Eq)]
pub enum Failure {
    /// The call is not one, or a file is not what is asked for.
    Call(String),
    /// A sheet is refused, or an answer is wrong.
    Wrong(String),
}

impl Failure {
    /// A failure of a file, which its name begins.
    pub fn of_file(name: &str, what: impl fmt::Display) -> Failure {
        Failure::Call(format!("{name}: {what}"))
    }

    /// A sheet that the library refuses, of a file.
    pub fn of_sheet(name: &str, refusal: &Refusal) -> Failure {
        Failure::Wrong(format!("{name}: the sheet is refused: {refusal}"))
    }

    /// The exit status: 2 for a wrong call or file, 1 for a refused sheet or a wrong answer.
    pub fn status(&self) -> ExitCode {
        match self {
            Failure::Call(_) => ExitCode::from(2),
            Failure::Wrong(_) => ExitCode::from(1),
        }
    }
}

/// What the system says of an error, without its number.
pub fn said(error: &io::Error) -> String {
    let text = error.to_string();
    text.split(" (os error").next().unwrap_or("").to_string()
}

impl fmt::Display for Failure {
    fn fmt(&self, f: &mut fmt::Formatter) -> fmt::Result {
        match self {
            Failure::Call(what) | Failure::Wrong(what) => f.write_str(what),
        }
    }
}
