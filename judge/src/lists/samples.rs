//! The folder samples: NAME.sheet and NAME.out of each source NAME.txt.

use super::text::{about, joined};
use super::File;
use crate::printed_walk::printed;
use bytecode::source;
use std::fs;
use std::io;
use std::path::Path;

/// The names of the files of a folder, in order.
fn names(folder: &Path) -> io::Result<Vec<String>> {
    let mut names = vec![];
    for entry in fs::read_dir(folder)? {
        names.push(entry?.file_name().to_string_lossy().into_owned());
    }
    names.sort();
    Ok(names)
}

/// The sheet of a sample. Its first line is a comment that says what it shows.
fn sheet(source: &str) -> Result<Vec<u8>, String> {
    if !source.starts_with("# ") {
        return Err("the first line is no comment".to_string());
    }
    Ok(source::sheet(source)?)
}

/// The files of the sources. A file without a source is an error.
pub fn files(root: &Path) -> Result<Vec<File>, String> {
    let (folder, mut files) = (root.join("samples"), vec![]);
    let names = names(&folder).map_err(|what| format!("samples: {what}"))?;
    for name in names.iter().filter_map(|name| name.strip_suffix(".txt")) {
        let path = folder.join(format!("{name}.txt"));
        let text = fs::read_to_string(&path).map_err(|what| what.to_string());
        let sheet = text.and_then(|text| sheet(&text)).map_err(about(name))?;
        let out = joined(printed(&sheet));
        if name == "printed" {
            // The sheet of docs/RULES.md is the program's own sample.
            files.push(("crates/walksheet/stdin".to_string(), sheet.clone()));
            files.push(("crates/walksheet/stdout".to_string(), out.clone()));
        }
        files.push((format!("samples/{name}.sheet"), sheet));
        files.push((format!("samples/{name}.out"), out));
    }
    for name in names
        .iter()
        .filter(|name| !name.ends_with(".txt") && *name != "README.md")
    {
        if !files
            .iter()
            .any(|(path, _)| *path == format!("samples/{name}"))
        {
            return Err(format!("samples/{name} has no source"));
        }
    }
    Ok(files)
}
