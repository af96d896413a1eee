//! A file as it is given: a source, a sheet or a class file, known by its first bytes.

use crate::failure::{said, Failure};
use std::fs;
use std::io::{self, Read};

/// The most bytes that are read of a file. A sheet of this size has no exercise in it.
const MOST: u64 = 64 << 20;

/// What a file has.
#[derive(Debug, PartialEq, Eq)]
pub enum Input {
    /// The text of a source.
    Source(String),
    /// The bytes of a sheet, good or not.
    Sheet(Vec<u8>),
    /// The bytes of a class file.
    Class(Vec<u8>),
}

/// Reads a file. A name of `-` is standard input.
///
/// # Errors
///
/// Where it cannot be read, is empty or too long, or is neither text nor a sheet nor a class file.
pub fn read(name: &str) -> Result<Input, Failure> {
    let bytes = if name == "-" {
        bytes_of(io::stdin().lock())
    } else {
        fs::File::open(name).and_then(|file| {
            if file.metadata()?.is_dir() {
                return Err(io::Error::other("is a folder, not a file"));
            }
            bytes_of(file)
        })
    };
    let bytes = bytes.map_err(|error| Failure::of_file(name, sentence(&error)))?;
    known(bytes).map_err(|what| Failure::of_file(name, what))
}

fn bytes_of(file: impl Read) -> io::Result<Vec<u8>> {
    let mut bytes = vec![];
    file.take(MOST + 1).read_to_end(&mut bytes)?;
    Ok(bytes)
}

/// Why a file is not read.
fn sentence(error: &io::Error) -> String {
    match error.kind() {
        io::ErrorKind::NotFound => "there is no such file".to_string(),
        io::ErrorKind::PermissionDenied => "may not be read".to_string(),
        _ => said(error),
    }
}

/// What bytes are. A sheet begins with `LM`, or is no text; a class file with CAFEBABE.
fn known(bytes: Vec<u8>) -> Result<Input, String> {
    if bytes.is_empty() {
        return Err("is empty".to_string());
    }
    if bytes.len() as u64 > MOST {
        return Err("has more than 64 megabytes".to_string());
    }
    if bytes.starts_with(&[0xCA, 0xFE, 0xBA, 0xBE]) {
        return Ok(Input::Class(bytes));
    }
    if bytes.starts_with(b"LM\0") {
        return Ok(Input::Sheet(bytes));
    }
    String::from_utf8(bytes).map(Input::Source).map_err(|_| {
        "is no text in UTF-8, and begins neither as a sheet nor as a class file".to_string()
    })
}
