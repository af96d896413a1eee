//! What the tests of `workbook mark` have in common: a folder with files, and the two outcomes.

use super::folder::{assert_said, Folder};
use super::sample_path;
use std::fs;

/// The samples of the folder.
const SAMPLES: [&str; 8] = [
    "division_by_zero",
    "endless",
    "long_sum",
    "loop",
    "printed",
    "refused_stack",
    "refused_words",
    "wide",
];

const VOID: &str = "max_stack 0\nmax_locals 0\ncode\n    return\n";

/// A value of each kind in the locals, and then on the stack.
pub const KINDS: &str = "\
descriptor (FDJILjava/lang/Object;F)I
max_stack 8
max_locals 9
argument float 0.1
argument double 0.25
argument long 4294967301
argument int -1
argument int 0
argument float h7FC00001
code
    fload_0
    dload_1
    lload_3
    iload 5
    aload 6
    pop
    ireturn
";

/// A folder with samples and the source of kinds.
pub fn folder(name: &str) -> Folder {
    let folder = Folder::new(name);
    for sample in SAMPLES {
        let name = format!("{sample}.sheet");
        folder.write(&name, fs::read(sample_path(&name)).unwrap());
    }
    folder.write("void.txt", VOID);
    folder.write("kinds.txt", KINDS);
    folder
}

/// Fails where answers are not all right, with so many places.
#[track_caller]
pub fn right(folder: &Folder, file: &str, answers: &str, places: &str) {
    folder.write("a.txt", answers);
    let output = folder.workbook(&["mark", file, "a.txt"]);
    assert_eq!(String::from_utf8_lossy(&output.stderr), "", "{answers}");
    let said = String::from_utf8(output.stdout).unwrap();
    assert_eq!(said, format!("all right: {places} compared\n"));
    assert_eq!(output.status.code(), Some(0));
}

/// Fails where a sentence is not the one on the first wrong answer.
#[track_caller]
pub fn wrong(folder: &Folder, file: &str, answers: &str, sentence: &str) {
    folder.write("a.txt", answers);
    assert_said(&folder.workbook(&["mark", file, "a.txt"]), 1, sentence);
}
