//! `workbook make` of every sample, and of sheets that the library refuses.
#![forbid(unsafe_code)]

mod common;

use common::folder::{assert_said, Folder};
use common::{sample, sample_path, samples};
use std::fs;

#[test]
fn every_sample_is_made_byte_for_byte() {
    let folder = Folder::new("samples");
    for sample in samples() {
        let source = sample_path(&format!("{}.txt", sample.name));
        let mut call = vec!["make", source.to_str().unwrap()];
        if sample.printed.starts_with("sheet ") {
            call.push("--refused");
        }
        let made = folder.workbook(&call);
        assert_eq!(String::from_utf8_lossy(&made.stderr), "", "{}", sample.name);
        assert_eq!(made.stdout, sample.sheet, "{}", sample.name);
        assert_eq!(made.status.code(), Some(0), "{}", sample.name);

        call.extend(["-o", "made.sheet"]);
        let made = folder.workbook(&call);
        assert_eq!(made.stdout, b"", "{}", sample.name);
        assert_eq!(folder.read("made.sheet"), Some(sample.sheet));
        fs::remove_file(folder.path("made.sheet")).unwrap();
    }
}

#[test]
fn a_refused_sheet_is_not_written() {
    let folder = Folder::new("refused");
    for (name, refusal) in [
        ("refused_length", "21: The file ends in the middle of a record."),
        (
            "refused_words",
            "31: The file's descriptor is not parameter types in parentheses and then a return \
             type, as (IJ)B is, or there are more or fewer argument words than it takes, two for a \
             long or a double.",
        ),
        (
            "refused_handler",
            "33: The file has an EX record whose length is not 8, whose start is not below its end, \
             whose start or handler is outside of the code, whose end is above the code's length, \
             or whose catch type is neither 0 nor the index of a class.",
        ),
    ] {
        let source = fs::read(sample_path(&format!("{name}.txt"))).unwrap();
        folder.write("a.txt", source);
        let said = format!("a.txt: the sheet is refused: {refusal}");
        assert_said(&folder.workbook(&["make", "a.txt"]), 1, &said);
        let to_file = folder.workbook(&["make", "a.txt", "-o", "a.sheet"]);
        assert_said(&to_file, 1, &said);
        assert_eq!(folder.read("a.sheet"), None, "{name}");
    }
}

#[test]
fn a_source_needs_no_comment_in_its_first_line() {
    let folder = Folder::new("bare");
    let source = "max_stack 2\nmax_locals 0\ncode\niconst_3; iconst_4\niadd; ireturn";
    folder.write("a.txt", source);
    let made = folder.workbook(&["make", "a.txt"]);
    assert_eq!(made.stdout, sample("printed").sheet);
}
