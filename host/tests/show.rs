//! `workbook show` and `workbook opcodes`.
#![forbid(unsafe_code)]

mod common;

use common::folder::{given, program};
use common::{sample_path, samples, sheet};
use std::io::Write;
use std::process::{Command, Stdio};
use workbook_host::instructions::of_opcode;
use workbook_host::source;

/// What the program gives: its exit status, and what it prints on standard output and error.
type Given = (i32, String, String);

fn workbook(words: &[&str], input: &[u8]) -> Given {
    let output = given(Command::new(program()).args(words), input);
    let text = |bytes| String::from_utf8(bytes).unwrap();
    let status = output.status.code().unwrap();
    (status, text(output.stdout), text(output.stderr))
}

/// What a call gives that prints nothing on standard output.
fn failure(words: &[&str], input: &[u8]) -> (i32, String) {
    let (status, printed, error) = workbook(words, input);
    assert_eq!(printed, "");
    (status, error)
}

#[test]
fn the_source_of_a_sample_gives_its_sheet() {
    let mut refused = vec![];
    for sample in samples() {
        let (status, text, error) = workbook(&["show", "--source", "-"], &sample.sheet);
        assert_eq!(source::sheet(&text), Ok(sample.sheet), "{}", sample.name);
        assert_eq!(status == 0, error.is_empty(), "{error}");
        if status == 1 {
            refused.push(sample.name);
        }
    }
    let expected = ["refused_handler", "refused_length", "refused_words"];
    assert_eq!(refused, expected);
}

#[test]
fn a_source_and_its_sheet_have_one_listing() {
    let path = sample_path("printed.sheet");
    let sheet = path.to_str().unwrap();
    let text = "     0: iconst_3
     1: iconst_4
     2: iadd
     3: ireturn
max_stack 2, max_locals 0
";
    for file in [sheet, &sheet.replace(".sheet", ".txt")] {
        let given = workbook(&["show", file], b"");
        assert_eq!(given, (0, text.to_string(), String::new()));
    }
}

#[test]
fn a_sample_has_its_source() {
    let path = sample_path("catch_division.sheet");
    let text = "# A method as its sheet has it.
max_stack 3
max_locals 2
descriptor (II)I
constant 1 class yes
handler L0 L7 L7 1
argument int 10
argument int 0
code
L0:
    bipush 7
    iload_0
    iload_1
    idiv
    iadd
    ireturn
L7:
    pop
    iconst_m1
    ireturn
";
    let given = workbook(&["show", path.to_str().unwrap(), "--source"], b"");
    assert_eq!(given, (0, text.to_string(), String::new()));
}

#[test]
fn a_refused_sheet_is_listed_and_then_refused() {
    let sheet = b"LM\0\x04\0\x02\0\0CD\0\x05\x06\x07\x60\xACAR\0\0";
    let text = "     0: iconst_3
     1: iconst_4
     2: iadd
     3: ireturn
     4: lstore_2
max_stack 2, max_locals 0
no record from byte 17 on: 52 00 00
";
    let error = "-: the sheet is refused: 21: The file ends in the middle of a record.\n";
    let given = workbook(&["show", "-"], sheet);
    assert_eq!(given, (1, text.to_string(), error.to_string()));
    let text = "# Bytes, as no other lines give them.
bytes 4C 4D 00 04 00 02 00 00 43 44 00 05 06 07 60 AC
bytes 41 52 00 00
";
    let given = workbook(&["show", "-", "--source"], sheet);
    assert_eq!(given, (1, text.to_string(), error.to_string()));
}

#[test]
fn what_cannot_be_shown_is_said() {
    let usage = "usage: workbook show FILE [METHOD[DESCRIPTOR] ARGUMENT ...] [--source]\n";
    let class = "-: the class file is damaged: it ends at byte 4, inside of a part\n";
    for (words, input, error) in [
        (&["show"][..], &b""[..], usage),
        (&["show", "--source"], b"", usage),
        (
            &["show", "--sorce", "a"],
            b"",
            "show has no option --sorce; usage: workbook show FILE [METHOD[DESCRIPTOR] ARGUMENT ...] [--source]\n",
        ),
        (&["show", "-"], b"\xCA\xFE\xBA\xBE", class),
        (&["show", "-"], b"", "-: is empty\n"),
        (&["opcodes", "1"], b"", "usage: workbook opcodes\n"),
    ] {
        assert_eq!(failure(words, input), (2, error.to_string()));
    }
    // A source's own errors are told with the file's name.
    let (status, error) = failure(&["show", "-"], b"# a\nmax_stack 1\ncode\nnop");
    assert_eq!((status, error.starts_with("-:")), (2, true), "{error}");
}

#[test]
fn a_reader_that_stops_is_no_failure() {
    let mut child = Command::new(env!("CARGO_BIN_EXE_workbook"))
        .args(["show", "-"])
        .stdin(Stdio::piped())
        .stdout(Stdio::piped())
        .stderr(Stdio::piped())
        .spawn()
        .unwrap();
    // Its listing is more than a pipe holds, so that it still prints when the reader is gone.
    let sheet = sheet(0, 0, &[0; 65_535], &[]);
    child.stdin.take().unwrap().write_all(&sheet).unwrap();
    drop(child.stdout.take());
    let output = child.wait_with_output().unwrap();
    assert_eq!(output.status.code(), Some(0));
    assert_eq!(output.stderr, b"");
}

#[test]
fn each_opcode_has_its_line_and_its_name() {
    let (status, text, error) = workbook(&["opcodes"], b"");
    assert_eq!((status, error), (0, String::new()));
    let page = include_str!("../../crates/opcode_page/stdout");
    assert_eq!((text.lines().count(), page.lines().count()), (256, 256));
    for (opcode, (line, of_page)) in (0..=255).zip(text.lines().zip(page.lines())) {
        let name = line.strip_prefix(of_page).unwrap().trim_start();
        let expected = of_opcode(opcode).map_or("", |instruction| instruction.name);
        assert_eq!(name, expected);
    }
    for line in [
        "0 1 0 0     nop",
        "46 255 0 0",
        "132 3 0 0   iinc",
        "170 0 1 0   tableswitch",
        "196 254 0 0 wide",
        "200 5 0 0   goto_w",
    ] {
        assert!(text.lines().any(|other| other == line), "{line}");
    }
}
