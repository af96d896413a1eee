//! Where a sheet is written.

use crate::failure::{said, Failure};
use std::fs;
use std::io::{self, Write};
use std::path::Path;

/// A file, or standard output.
#[derive(Debug, PartialEq, Eq)]
pub enum Output<'a> {
    /// Standard output.
    Standard,
    /// The file of this name.
    File(&'a str),
}

impl<'a> Output<'a> {
    /// The file of a name; without one, or with `-`, standard output.
    ///
    /// # Errors
    ///
    /// Where that is a terminal, which shows no bytes.
    pub fn new(name: Option<&'a str>, terminal: bool) -> Result<Output<'a>, Failure> {
        match name {
            Some(name) if name != "-" => Ok(Output::File(name)),
            _ if terminal => Err(Failure::Call(
                "a sheet is bytes, which a terminal does not show; \
                 name its file, as -o FILE.sheet does"
                    .to_string(),
            )),
            _ => Ok(Output::Standard),
        }
    }

    /// Writes bytes.
    ///
    /// # Errors
    ///
    /// Where not all of them can be written.
    pub fn write(&self, bytes: &[u8]) -> Result<(), Failure> {
        let (name, written) = match self {
            Output::Standard => ("standard output", to_standard(bytes)),
            Output::File(name) if Path::new(name).is_dir() => {
                return Err(Failure::of_file(name, "is a folder, not a file"));
            }
            Output::File(name) => (*name, fs::write(name, bytes)),
        };
        written.map_err(|error| Failure::of_file(name, sentence(&error)))
    }
}

fn to_standard(bytes: &[u8]) -> io::Result<()> {
    let mut output = io::stdout().lock();
    output.write_all(bytes)?;
    output.flush()
}

/// Why a file is not written.
fn sentence(error: &io::Error) -> String {
    match error.kind() {
        io::ErrorKind::NotFound => "there is no folder for this file".to_string(),
        io::ErrorKind::PermissionDenied => "may not be written".to_string(),
        io::ErrorKind::BrokenPipe => "nothing reads it any more".to_string(),
        _ => said(error),
    }
}

#[cfg(test)]
mod tests {
    use super::*;

    #[test]
    fn a_terminal_gets_no_sheet() {
        let what = "a sheet is bytes, which a terminal does not show; \
                    name its file, as -o FILE.sheet does";
        for name in [None, Some("-")] {
            assert_eq!(
                Output::new(name, true),
                Err(Failure::Call(what.to_string()))
            );
            assert_eq!(Output::new(name, false), Ok(Output::Standard));
        }
        let file = Output::new(Some("a.sheet"), true);
        assert_eq!(file, Ok(Output::File("a.sheet")));
    }
}
