//! What a command prints on standard output.

use crate::failure::{said, Failure};
use std::io::{self, ErrorKind, Write};

/// Prints a text. A reader that has read enough, as `head` does, is no failure.
pub fn print(text: &str) -> Result<(), Failure> {
    let mut stdout = io::stdout().lock();
    let written = stdout
        .write_all(text.as_bytes())
        .and_then(|()| stdout.flush());
    match written {
        Err(error) if error.kind() != ErrorKind::BrokenPipe => {
            let what = format!("standard output cannot be written: {}", said(&error));
            Err(Failure::Call(what))
        }
        _ => Ok(()),
    }
}
