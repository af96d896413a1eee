//! The sheet of a file: a source's, a sheet itself, or that of a method of a class file, which words
//! behind the file name with its arguments.

use crate::failure::Failure;
use crate::input::{self, Input};
use crate::make::of_source;
use crate::make_class::make_class;

/// The sheet of a file, and of the method that the words behind it name where it is a class file.
///
/// # Errors
///
/// Where the file cannot be read or is a source that is wrong, where a class file has no such method,
/// and where words stand behind another file.
pub fn sheet(file: &str, method: &[&str]) -> Result<Vec<u8>, Failure> {
    let input = input::read(file)?;
    if let Input::Class(bytes) = input {
        return make_class(file, &bytes, method);
    }
    if let Some(word) = method.first() {
        let what = format!("is no class file, and no word stands behind it, as {word} does");
        return Err(Failure::of_file(file, what));
    }
    match input {
        Input::Source(text) => of_source(file, &text),
        Input::Sheet(bytes) | Input::Class(bytes) => Ok(bytes),
    }
}
