//! `workbook show`: the listing of a source or a sheet, or its source.

use crate::failure::Failure;
use crate::method::sheet;
use crate::output::print;
use workbook_host::{listing, Walk};

const USAGE: &str = "usage: workbook show FILE [METHOD[DESCRIPTOR] ARGUMENT ...] [--source]";

/// Prints the listing of a file, or with `--source` the source that gives its sheet. A refused sheet
/// is printed as far as it can be read, and then its refusal is the failure.
pub fn show(words: &[String]) -> Result<(), Failure> {
    let (names, as_source) = call(words)?;
    let Some((name, method)) = names.split_first() else {
        return Err(Failure::Call(USAGE.to_string()));
    };
    let bytes = sheet(name, method)?;
    print(&match as_source {
        true => listing::source_of_bytes(&bytes),
        false => listing::listing_of_bytes(&bytes),
    })?;
    match Walk::open(bytes) {
        Ok(_) => Ok(()),
        Err(refusal) => Err(Failure::of_sheet(name, &refusal)),
    }
}

/// The words of a call that are no option, and whether the source is asked for.
fn call(words: &[String]) -> Result<(Vec<&str>, bool), Failure> {
    let (mut names, mut as_source) = (vec![], false);
    for word in words {
        match word.as_str() {
            "--source" => as_source = true,
            option if option.starts_with("--") => {
                let what = format!("show has no option {option}; {USAGE}");
                return Err(Failure::Call(what));
            }
            name => names.push(name),
        }
    }
    Ok((names, as_source))
}
