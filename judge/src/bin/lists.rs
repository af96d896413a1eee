//! `lists [--check]`: writes the lists of the programs and of the samples; with `--check` it ends with 1
//! unless each of them is exactly what would be written. The exported library is not needed.

use std::env;
use std::fs;
use std::path::Path;
use std::process::ExitCode;

fn main() -> ExitCode {
    let given: Vec<String> = env::args().skip(1).collect();
    let check = given == ["--check"];
    if !check && !given.is_empty() {
        eprintln!("usage: lists [--check]");
        return ExitCode::from(2);
    }
    match write_or_check(check) {
        Ok(many) => {
            println!("{many} files are what the judge writes");
            ExitCode::SUCCESS
        }
        Err(what) => {
            eprintln!("{what}");
            ExitCode::FAILURE
        }
    }
}

/// How many files there are, after all of them are compared or written.
fn write_or_check(check: bool) -> Result<usize, String> {
    let root = Path::new(env!("CARGO_MANIFEST_DIR")).join("..");
    let (mut wrong, files) = (vec![], judge::lists::files(&root)?);
    for (path, made) in &files {
        if fs::read(root.join(path)).is_ok_and(|found| found == *made) {
            continue;
        }
        if check {
            wrong.push(format!("{path}: not what the judge writes"));
        } else {
            fs::write(root.join(path), made).map_err(|what| format!("{path}: {what}"))?;
            println!("{path} written");
        }
    }
    if wrong.is_empty() {
        return Ok(files.len());
    }
    Err(wrong.join("\n"))
}
