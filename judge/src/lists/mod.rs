//! The lists: what the programs of crates/ read and must print, and the samples with their walks.
//!
//! What is plain stands in judge/lists as text, each file with its own explanation; what is made by a rule
//! is made here.

pub mod decoding;
pub mod facts;
pub mod methods;
pub mod presses;
pub mod returns;
pub mod samples;
pub mod scatter;
pub mod sheets;
pub mod text;
pub mod traces;

use crate::opcode_page::page;
use std::fs;
use std::path::Path;

/// A committed file: its path from the repository's root, and what it has to hold.
pub type File = (String, Vec<u8>);

/// All files that the judge writes, or what is wrong in the lists that they are made of.
pub fn files(root: &Path) -> Result<Vec<File>, String> {
    let mut files = vec![];
    let facts = root.join("tools/vectors/facts.txt");
    let facts = fs::read_to_string(&facts).map_err(|what| format!("facts.txt: {what}"))?;
    let sample_methods = methods::samples(&facts)?;
    let mut add = |path: &str, made: Vec<u8>| files.push((path.to_string(), made));
    add("crates/opcode_page/stdout", page().into_bytes());
    add("crates/decoding_vectors/stdin", decoding::stdin()?);
    add("crates/step_traces/stdin", methods::stdin(&sample_methods)?);
    add(
        "crates/step_traces/stdout",
        traces::stdout(&sample_methods)?,
    );
    let sheets = sheets::samples()?;
    add("crates/sheet_loads/stdin", sheets::stdin(&sheets));
    add("crates/sheet_loads/stdout", sheets::stdout(&sheets)?);
    let lists = presses::lists()?;
    add("crates/press_lists/stdin", presses::stdin(&lists));
    add(
        "crates/press_lists/stdout",
        presses::answers::stdout(&lists)?,
    );
    files.extend(samples::files(root)?);
    Ok(files)
}
