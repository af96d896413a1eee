//! What `workbook make` reads and writes: files of all sorts, pipes, and calls that are wrong.
#![forbid(unsafe_code)]
#![cfg(unix)]

mod common;

use common::folder::{assert_said, program, Folder};
use common::sample;
use std::fs::{self, File};
use std::process::Command;

const SOURCE: &str = "max_stack 2\nmax_locals 0\ncode\niconst_3; iconst_4; iadd; ireturn\n";

/// What a call says that is wrong in a folder with a good source `a.txt`.
#[track_caller]
fn wrong(folder: &Folder, words: &[&str], sentence: &str) {
    assert_said(&folder.workbook(words), 2, sentence);
}

fn folder(name: &str) -> Folder {
    let folder = Folder::new(name);
    folder.write("a.txt", SOURCE);
    folder
}

#[test]
fn a_file_that_is_no_source() {
    let folder = folder("no-source");
    fs::create_dir(folder.path("samples")).unwrap();
    folder.write("empty.txt", "");
    folder.write("latin.txt", b"# caf\xE9\n");
    folder.write("a.sheet", sample("printed").sheet);
    folder.write("A.class", b"\xCA\xFE\xBA\xBE\0\0\0\x3D");
    for (file, what) in [
        ("samples", "is a folder, not a file"),
        ("nowhere.txt", "there is no such file"),
        ("empty.txt", "is empty"),
        (
            "latin.txt",
            "is no text in UTF-8, and begins neither as a sheet nor as a class file",
        ),
        ("a.sheet", "is a sheet already"),
        (
            "A.class",
            "the class file is damaged: it ends at byte 8, inside of a part",
        ),
    ] {
        wrong(&folder, &["make", file], &format!("{file}: {what}"));
    }
}

#[test]
fn a_file_of_100_megabytes() {
    let folder = folder("large");
    let file = File::create(folder.path("large.txt")).unwrap();
    file.set_len(100 << 20).unwrap();
    let what = "large.txt: has more than 64 megabytes";
    wrong(&folder, &["make", "large.txt"], what);
}

#[test]
fn a_pipe_is_a_file() {
    let folder = folder("pipe");
    let sheet = sample("printed").sheet;
    for name in ["-", "/dev/stdin"] {
        let made = folder.workbook_given(&["make", name], SOURCE.as_bytes());
        assert_eq!(made.stdout, sheet, "{name}");
        let made = folder.workbook_given(&["make", name], b"code");
        let what = format!("{name}:1: there is no line with max_stack before code");
        assert_said(&made, 2, &what);
    }
    let substituted = Command::new("bash")
        .args(["-c", "\"$0\" make <(cat a.txt)"])
        .arg(program())
        .current_dir(folder.path(""))
        .output()
        .unwrap();
    assert_eq!(substituted.stdout, sheet);
    assert_eq!(substituted.stderr, b"");
}

#[test]
fn a_call_that_is_none() {
    let folder = folder("calls");
    let usage =
        "usage: workbook make FILE [METHOD[DESCRIPTOR] ARGUMENT ...] [-o SHEET] [--refused]";
    for (words, what) in [
        (vec!["make"], usage.to_string()),
        (vec!["make", "-o", "a.sheet"], usage.to_string()),
        (
            vec!["make", "a.txt", "-o"],
            format!("-o takes the name of a file; {usage}"),
        ),
        (
            vec!["make", "a.txt", "-o", "a.sheet", "-o", "b.sheet"],
            format!("-o stands twice; {usage}"),
        ),
        (
            vec!["make", "a.txt", "--refusd"],
            "make has no option --refusd; did you mean --refused?".to_string(),
        ),
        (
            vec!["make", "-x", "a.txt"],
            format!("make has no option -x; {usage}"),
        ),
        (
            vec!["make", "a.txt", "-v"],
            format!("make has no option -v; {usage}"),
        ),
        (
            vec!["make", "a.txt", "b.txt"],
            "a.txt: is a source, and no word stands behind it, as b.txt does".to_string(),
        ),
    ] {
        wrong(&folder, &words, &what);
    }
    assert_eq!(folder.read("a.sheet"), None);
}

#[test]
fn an_output_that_cannot_be_written() {
    let folder = folder("outputs");
    fs::create_dir(folder.path("samples")).unwrap();
    for (output, what) in [
        ("samples", "samples: is a folder, not a file"),
        ("no/a.sheet", "no/a.sheet: there is no folder for this file"),
        ("a.txt", "a.txt: the sheet would be written over this file"),
        (
            "./a.txt",
            "a.txt: the sheet would be written over this file",
        ),
    ] {
        wrong(&folder, &["make", "a.txt", "-o", output], what);
    }
    assert_eq!(folder.read("a.txt"), Some(SOURCE.as_bytes().to_vec()));
}

#[test]
fn the_output_may_be_standard_output_by_name() {
    let folder = folder("dash");
    let made = folder.workbook(&["make", "a.txt", "-o", "-"]);
    assert_eq!(made.stdout, sample("printed").sheet);
    assert_eq!(folder.read("-"), None);
}

#[test]
#[cfg(target_os = "linux")]
fn a_full_disk_is_told() {
    let folder = folder("full");
    let what = "/dev/full: No space left on device";
    wrong(&folder, &["make", "a.txt", "-o", "/dev/full"], what);
    let full = File::options().write(true).open("/dev/full").unwrap();
    let made = Command::new(program())
        .args(["make", "a.txt"])
        .current_dir(folder.path(""))
        .stdout(full)
        .output()
        .unwrap();
    assert_said(&made, 2, "standard output: No space left on device");
}
