//! The output of `workbook key`: closed before its end, full, and a million steps long.
#![forbid(unsafe_code)]

mod common;

use common::sample_path;
use std::io::{BufRead, BufReader};
use std::process::{Command, Stdio};

#[test]
fn a_closed_output_ends_a_key_quietly() {
    let mut child = Command::new(env!("CARGO_BIN_EXE_workbook"))
        .current_dir(sample_path(""))
        .args(["key", "endless.sheet", "--steps", "18446744073709551615"])
        .stdout(Stdio::piped())
        .stderr(Stdio::piped())
        .spawn()
        .unwrap();
    let mut first = String::new();
    // The reader is dropped here, and with it the pipe.
    BufReader::new(child.stdout.take().unwrap())
        .read_line(&mut first)
        .unwrap();
    assert_eq!(first, "key of endless.sheet\n");
    let output = child.wait_with_output().unwrap();
    assert_eq!(String::from_utf8_lossy(&output.stderr), "");
    assert!(output.status.success());
}

#[cfg(target_os = "linux")]
#[test]
fn a_million_steps_need_less_than_50_megabytes() {
    let limited = "ulimit -v 51200 && exec \"$0\" key endless.sheet --steps 1000000";
    let mut child = Command::new("sh")
        .current_dir(sample_path(""))
        .args(["-c", limited, env!("CARGO_BIN_EXE_workbook")])
        .stdout(Stdio::piped())
        .spawn()
        .unwrap();
    let (mut steps, mut last) = (0, String::new());
    for line in BufReader::new(child.stdout.take().unwrap()).lines() {
        last = line.unwrap();
        steps += u32::from(last.starts_with("step "));
    }
    assert!(child.wait().unwrap().success());
    assert_eq!(steps, 1_000_000);
    let end = "no answer yet: 1000000 steps were taken and more would follow, \
               next iload_0 at offset 0";
    assert_eq!(last, end);
}

#[cfg(target_os = "linux")]
#[test]
fn an_output_that_cannot_be_written_is_said() {
    let full = std::fs::OpenOptions::new().write(true).open("/dev/full");
    let output = Command::new(env!("CARGO_BIN_EXE_workbook"))
        .arg("key")
        .arg(sample_path("loop.sheet"))
        .stdout(full.unwrap())
        .output()
        .unwrap();
    let said = String::from_utf8_lossy(&output.stderr).into_owned();
    assert_eq!(said, "standard output: No space left on device\n");
    assert_eq!(output.status.code(), Some(2));
}
