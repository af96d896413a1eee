//! Java's tools, for tests that are skipped where they are not there, and the command `workbook`.

use std::fs;
use std::path::{Path, PathBuf};
use std::process::{Command, Output};

/// The program `workbook`, with its words.
pub fn command(words: &[&str]) -> Output {
    let mut command = Command::new(env!("CARGO_BIN_EXE_workbook"));
    command.args(words).output().unwrap()
}

/// The command that makes a sheet of a method, with its words.
pub fn workbook(words: &[&str]) -> Output {
    command(&[&["make"], words].concat())
}

/// The folder with the classes of java/ and of further sources, each a name and its text. Nothing,
/// and a word about it, where there is no javac.
pub fn compiled(folder: &str, further: &[(&str, &str)]) -> Option<PathBuf> {
    if Command::new("javac").arg("-version").output().is_err() {
        eprintln!("skipped: there is no javac");
        return None;
    }
    let folder = Path::new(env!("CARGO_TARGET_TMPDIR")).join(folder);
    // What an earlier test left is of earlier sources.
    let _ = fs::remove_dir_all(&folder);
    fs::create_dir_all(&folder).unwrap();
    let sources = Path::new(env!("CARGO_MANIFEST_DIR")).join("tests/java");
    let sources = fs::read_dir(sources).unwrap();
    let mut files: Vec<PathBuf> = sources.map(|entry| entry.unwrap().path()).collect();
    files.retain(|file| {
        file.extension()
            .is_some_and(|extension| extension == "java")
    });
    for (name, text) in further {
        let file = folder.join(name).with_extension("java");
        fs::write(&file, text).unwrap();
        files.push(file);
    }
    let mut javac = Command::new("javac");
    javac
        .args(["-encoding", "UTF-8", "-d"])
        .arg(&folder)
        .args(&files);
    let done = javac.output().unwrap();
    assert!(
        done.status.success(),
        "{}",
        String::from_utf8_lossy(&done.stderr)
    );
    Some(folder)
}

/// What a class's main prints for a word.
pub fn printed(folder: &Path, class: &str, word: &str) -> String {
    let done = Command::new("java")
        .arg("-cp")
        .arg(folder)
        .args([class, word])
        .output()
        .unwrap();
    assert!(
        done.status.success(),
        "{}",
        String::from_utf8_lossy(&done.stderr)
    );
    String::from_utf8(done.stdout).unwrap()
}
