//! The source of a sheet gives the sheet's bytes again: of the samples, of the sheets of
//! docs/DIFFERENCES.md and of random ones.

mod random;

use bytecode::listing::{source, source_of_bytes};
use bytecode::sheet::Sheet;
use bytecode::source::sheet;
use bytecode::values;
use random::Random;
use std::fs;
use std::path::Path;

/// The root of the repository.
fn root() -> &'static Path {
    Path::new(concat!(env!("CARGO_MANIFEST_DIR"), "/.."))
}

/// Whether a source has a listing of instructions, and not the bytes of the whole sheet.
fn has_code(source: &str) -> bool {
    source.contains("\ncode\n")
}

#[test]
fn samples_come_back() {
    let mut names = vec![];
    for entry in fs::read_dir(root().join("samples")).unwrap() {
        let path = entry.unwrap().path();
        if path
            .extension()
            .is_some_and(|extension| extension == "sheet")
        {
            let bytes = fs::read(&path).unwrap();
            let name = path.file_stem().unwrap().to_str().unwrap().to_string();
            let text = source_of_bytes(&bytes);
            // The one sample that is no sheet: its CD is cut off.
            assert_eq!(has_code(&text), name != "refused_length", "{name}");
            assert_eq!(sheet(&text), Ok(bytes), "{name}");
            names.push(name);
        }
    }
    assert_eq!(names.len(), 31);
}

#[test]
fn differences_come_back() {
    let text = fs::read_to_string(root().join("docs/DIFFERENCES.md")).unwrap();
    let is_hexadecimal = |word: &&str| {
        word.starts_with("4C4D") && word.bytes().all(|digit| digit.is_ascii_hexdigit())
    };
    let sheets: Vec<&str> = text.split('`').filter(is_hexadecimal).collect();
    assert_eq!(sheets.len(), 165);
    for digits in sheets {
        let bytes = values::bytes(digits).unwrap();
        let text = source_of_bytes(&bytes);
        assert_eq!(has_code(&text), Sheet::read(&bytes).is_some(), "{digits}");
        assert_eq!(sheet(&text), Ok(bytes), "{digits}");
    }
}

#[test]
fn random_sheets_come_back() {
    let mut random = Random::new(20);
    let (mut with_code, mut with_bytes) = (0, 0);
    for _ in 0..2_000 {
        let given = random.sheet();
        let bytes = given.bytes();
        assert_eq!(Sheet::read(&bytes).as_ref(), Some(&given));
        let text = source(&given);
        assert_eq!(sheet(&text), Ok(bytes), "{text}");
        // Nothing but these has no line in a source.
        let has_lines = random::has_lines(&given);
        assert_eq!(has_code(&text), has_lines, "{text}");
        with_code += usize::from(has_lines);
        with_bytes += usize::from(!has_lines);
    }
    assert!(
        with_code > 1_000 && with_bytes > 100,
        "{with_code} {with_bytes}"
    );
}

#[test]
fn random_bytes_come_back() {
    let mut random = Random::new(21);
    for _ in 0..2_000 {
        let mut bytes = random.sheet().bytes();
        for _ in 0..=random.below(3) {
            let at = random.below(bytes.len());
            bytes[at] = random.byte();
        }
        bytes.truncate(1 + random.below(2 * bytes.len()));
        assert_eq!(sheet(&source_of_bytes(&bytes)), Ok(bytes));
    }
}

#[test]
fn a_source_has_labels_where_one_may_stand() {
    // A handler up to the end of the code; a jump into an instruction and one out of the code; bytes
    // that are no instruction; a switch whose padding is not looked at; an instruction cut off.
    let text = "# A method as its sheet has it.
max_stack 2
max_locals 1
descriptor (F)V
constant 2 float hFFC00001
constant 4 class no
handler L0 L50 L5 any
handler 1 L50 500 4
argument float 0.1
code
L0:
    sipush 300
    nop
    # unknown byte 186
    bytes BA
L5:
    ifeq L0
    ifeq -6
    goto_w +100000
    # lookupswitch, not padded with zeros
    bytes AB 00 01 00 00 00 00 00 00 00 00 00
    tableswitch 7 L0 default L50
    # goto (cut off by the end of the code)
    bytes A7 00
L50:
";
    let bytes = sheet(text).unwrap();
    assert_eq!(source_of_bytes(&bytes), text);
}
