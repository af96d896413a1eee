//! A folder of a test for the program `workbook`, gone when the test ends.

use std::io::Write;
use std::path::{Path, PathBuf};
use std::process::{Command, Output, Stdio};
use std::{env, fs, process};

/// A folder with a name of its own.
pub struct Folder {
    path: PathBuf,
}

impl Folder {
    /// An empty folder. No other test has the name.
    pub fn new(name: &str) -> Folder {
        let path = env::temp_dir().join(format!("workbook-{}-{name}", process::id()));
        fs::create_dir_all(&path).unwrap();
        Folder { path }
    }

    pub fn path(&self, name: &str) -> PathBuf {
        self.path.join(name)
    }

    pub fn write(&self, name: &str, bytes: impl AsRef<[u8]>) {
        fs::write(self.path(name), bytes).unwrap();
    }

    /// The bytes of a file, where there is one.
    pub fn read(&self, name: &str) -> Option<Vec<u8>> {
        fs::read(self.path(name)).ok()
    }

    /// What the program gives in this folder, with nothing on standard input.
    pub fn workbook(&self, words: &[&str]) -> Output {
        self.workbook_given(words, b"")
    }

    /// What the program gives in this folder, with bytes through a pipe on standard input.
    pub fn workbook_given(&self, words: &[&str], input: &[u8]) -> Output {
        let mut command = Command::new(program());
        given(command.args(words).current_dir(&self.path), input)
    }
}

/// What a command gives, with bytes through a pipe on standard input.
pub fn given(command: &mut Command, input: &[u8]) -> Output {
    let command = command.stdin(Stdio::piped()).stdout(Stdio::piped());
    let mut child = command.stderr(Stdio::piped()).spawn().unwrap();
    // A program that has ended reads nothing, which is no failure of the call.
    let _ = child.stdin.take().unwrap().write_all(input);
    child.wait_with_output().unwrap()
}

impl Drop for Folder {
    fn drop(&mut self) {
        let _ = fs::remove_dir_all(&self.path);
    }
}

/// The program.
pub fn program() -> &'static Path {
    Path::new(env!("CARGO_BIN_EXE_workbook"))
}

/// Fails where a call did not end with this status, nothing on standard output and one sentence.
#[track_caller]
pub fn assert_said(output: &Output, status: i32, sentence: &str) {
    assert_eq!(
        String::from_utf8_lossy(&output.stderr),
        format!("{sentence}\n")
    );
    assert_eq!(output.stdout, b"");
    assert_eq!(output.status.code(), Some(status));
}
