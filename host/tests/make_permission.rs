//! Files that `workbook make` may not read or write. The one test stands alone in its program: it copies
//! the program and runs the copy, which fails where another thread starts a process meanwhile.
#![forbid(unsafe_code)]
#![cfg(unix)]

mod common;

use common::folder::{assert_said, program, Folder};
use std::fs::{self, Permissions};
use std::os::unix::fs::PermissionsExt;
use std::os::unix::process::CommandExt;
use std::process::{Command, Output};

const SOURCE: &str = "max_stack 2\nmax_locals 0\ncode\niconst_3; iconst_4; iadd; ireturn\n";

/// Calls the program as a user who may not read everything, as root may.
fn as_nobody(folder: &Folder, words: &[&str]) -> Output {
    let copy = folder.path("workbook");
    fs::copy(program(), &copy).unwrap();
    for path in [folder.path(""), folder.path("a.txt"), copy.clone()] {
        fs::set_permissions(path, Permissions::from_mode(0o755)).unwrap();
    }
    let mut command = Command::new(copy);
    command.args(words).current_dir(folder.path(""));
    if fs::read(folder.path("secret.txt")).is_ok() {
        command.uid(65_534);
    }
    command.output().unwrap()
}

#[test]
fn a_file_without_permission() {
    let folder = Folder::new("permission");
    folder.write("a.txt", SOURCE);
    folder.write("secret.txt", SOURCE);
    let nothing = Permissions::from_mode(0o000);
    fs::set_permissions(folder.path("secret.txt"), nothing).unwrap();
    let read = as_nobody(&folder, &["make", "secret.txt"]);
    assert_said(&read, 2, "secret.txt: may not be read");
    let written = as_nobody(&folder, &["make", "a.txt", "-o", "secret.txt"]);
    assert_said(&written, 2, "secret.txt: may not be written");
}
