//! `workbook make` of a class file: what it writes, and what it says where it cannot make a sheet.
#![forbid(unsafe_code)]

mod common;

use common::java::{command, compiled, workbook};
use std::fs;
use std::path::{Path, PathBuf};
use std::process::Output;
use std::sync::LazyLock;

/// The folder with the classes of java/, where there is a javac.
static COMPILED: LazyLock<Option<PathBuf>> = LazyLock::new(|| compiled("make_class", &[]));

/// A call that is refused: its words, and what it says after the class file's name, or all that it
/// says where that begins with a method.
const UNHELD: [(&[&str], &str); 15] = [
    (
        &["field", "1", "2"],
        "Unheld.field: this method uses getstatic at 3, which is outside the 164 instructions",
    ),
    (
        &["text"],
        "Unheld.text: ldc at 0 loads a String, and a sheet holds only int, long, float and double",
    ),
    (
        &["item", "null"],
        "Unheld.item: this method uses iaload at 2, which is outside the 164 instructions",
    ),
    (
        &["outside"],
        "Unheld.outside: this method is native and has no code",
    ),
    (
        &["add(II)I", "1"],
        "Unheld.add takes 2 arguments (int, int), not 1",
    ),
    (
        &["add(JJ)J", "1", "2", "3"],
        "Unheld.add takes 2 arguments (long, long), not 3",
    ),
    (
        &["small", "200"],
        "Unheld.small, argument 1: 200 is no byte: -128 to 127",
    ),
    (
        &["isNull", "[]"],
        "Unheld.isNull, argument 1: [] is no int[] that a sheet holds: only null is",
    ),
    (
        &["instance"],
        "FILE: instance is not static, and a sheet has a static method",
    ),
    (
        &["add", "1", "2"],
        "FILE: add is 2 methods; say with the descriptor which one: 'add(II)I', 'add(JJ)J'",
    ),
    (
        &["add(FF)F", "1", "2"],
        "FILE: there is no add(FF)F, but 'add(II)I', 'add(JJ)J'",
    ),
    (
        &["smal", "1"],
        "FILE: there is no method smal; did you mean small?",
    ),
    (
        &["unknown"],
        "FILE: there is no method unknown; the static methods are field, text, item, isNull, add, small",
    ),
    (&[], "FILE: say which method: field, text, item, isNull, add, small"),
    (
        &["<init>"],
        "FILE: <init> is not static, and a sheet has a static method",
    ),
];

/// The words of a call that is refused as a wrong one, and what it says.
fn refused(words: &[&str]) -> String {
    let done = workbook(words);
    assert_eq!(done.status.code(), Some(2), "{words:?}");
    assert!(done.stdout.is_empty(), "{words:?}");
    let said = String::from_utf8(done.stderr).unwrap();
    said.strip_suffix('\n').unwrap().to_string()
}

fn text(path: &Path) -> &str {
    path.to_str().unwrap()
}

/// A file of this test, with its bytes.
fn file(name: &str, bytes: &[u8]) -> PathBuf {
    let path = Path::new(env!("CARGO_TARGET_TMPDIR")).join(name);
    fs::write(&path, bytes).unwrap();
    path
}

#[test]
fn what_a_sheet_cannot_hold_is_said() {
    let Some(folder) = COMPILED.as_ref() else {
        return;
    };
    let class = folder.join("Unheld.class");
    for (words, what) in UNHELD {
        let words = [&[text(&class)], words].concat();
        assert_eq!(refused(&words), what.replace("FILE", text(&class)));
    }
}

#[test]
fn a_sheet_goes_to_a_file_or_to_standard_output() {
    let Some(folder) = COMPILED.as_ref() else {
        return;
    };
    let (class, output) = (folder.join("Unheld.class"), folder.join("add.sheet"));
    let made = workbook(&[text(&class), "add(JJ)J", "3000000000", "-1"]);
    assert!(made.status.success() && made.stderr.is_empty());
    let mut sheet = b"LM\x00\x04\x00\x04\x00\x04DS\x00\x05(JJ)JCD\x00\x04\x1E\x20\x61\xAD".to_vec();
    sheet.extend(b"AR\x00\x10\xB2\xD0\x5E\x00\x00\x00\x00\x00\xFF\xFF\xFF\xFF\xFF\xFF\xFF\xFF");
    assert_eq!(made.stdout, sheet);
    let words = [
        "-o",
        text(&output),
        text(&class),
        "add(JJ)J",
        "3000000000L",
        "-0x1",
    ];
    let made = workbook(&words);
    assert!(made.status.success() && made.stdout.is_empty() && made.stderr.is_empty());
    assert_eq!(fs::read(&output).unwrap(), sheet);
}

#[test]
fn what_is_no_whole_class_file_is_said() {
    let none = "there_is_none.class";
    assert_eq!(
        refused(&[none, "a"]),
        format!("{none}: there is no such file")
    );
    let cut = file("cut.class", b"\xCA\xFE\xBA\xBE\0\0");
    let what = "the class file is damaged: it ends at byte 6, inside of a part";
    assert_eq!(
        refused(&[text(&cut), "a"]),
        format!("{}: {what}", text(&cut))
    );
}

#[test]
fn a_sheet_that_cannot_be_written_is_said() {
    let Some(folder) = COMPILED.as_ref() else {
        return;
    };
    let class = folder.join("Unheld.class");
    let output = folder.join("none").join("a.sheet");
    let words = [text(&class), "small", "1", "-o", text(&output)];
    let what = "there is no folder for this file";
    assert_eq!(refused(&words), format!("{}: {what}", text(&output)));
}

/// A class file whose method has an exception table that no compiler writes.
#[test]
fn a_sheet_that_the_load_refuses_is_said() {
    let Some(folder) = COMPILED.as_ref() else {
        return;
    };
    let mut class = fs::read(folder.join("Caught.class")).unwrap();
    // The table of `quotient` has one entry: from 0 to before 3, the handler at 4.
    let entry = [0, 1, 0, 0, 0, 3, 0, 4];
    let at = class.windows(entry.len()).position(|bytes| bytes == entry);
    class[at.unwrap() + 5] = 0;
    let class = file("refused.class", &class);
    let done = workbook(&[text(&class), "quotient", "1", "2"]);
    assert_eq!(done.status.code(), Some(1));
    let said = String::from_utf8(done.stderr).unwrap();
    let start = format!("{}: the sheet is refused: 33: ", text(&class));
    assert!(said.starts_with(&start), "{said}");
}

/// The other commands take the same words behind a class file, and do with them what they do with the
/// sheet.
#[test]
fn a_method_needs_no_sheet() {
    let Some(folder) = COMPILED.as_ref() else {
        return;
    };
    let class = folder.join("Unheld.class");
    let sheet = folder.join("shown.sheet");
    let method = ["add(JJ)J", "3000000000", "-1"];
    let made = [&[text(&class)], &method[..], &["-o", text(&sheet)]].concat();
    assert!(workbook(&made).status.success());
    let answers = file("answers.txt", b"answer return 2999999999");
    let answers = text(&answers);
    for (name, last) in [
        ("show", &["--source"][..]),
        ("key", &["--format", "json", "--steps", "3"]),
        ("walk", &[]),
        ("mark", &[answers]),
    ] {
        let of_class = command(&[&[name, text(&class)], &method[..], last].concat());
        let of_sheet = command(&[&[name, text(&sheet)], last].concat());
        let printed = |output: &Output| {
            let text = String::from_utf8(output.stdout.clone()).unwrap();
            text.replace("Unheld.class", "shown.sheet")
        };
        assert!(of_class.status.success() && of_class.stderr.is_empty());
        assert_eq!(printed(&of_class), printed(&of_sheet), "{name}");
        // A sheet has one method, and nothing to give it.
        let words = [&[name, text(&sheet)], &method[..], last].concat();
        let said = String::from_utf8(command(&words).stderr).unwrap();
        let what = "is no class file, and no word stands behind it, as add(JJ)J does\n";
        assert_eq!(said, format!("{}: {what}", text(&sheet)));
    }
}
