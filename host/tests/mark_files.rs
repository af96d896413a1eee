//! `workbook mark`: what is said of a file that has no answers, and of a wrong call.
#![forbid(unsafe_code)]

mod common;

use common::folder::assert_said;
use common::marks::folder;

const USAGE: &str =
    "usage: workbook mark FILE [METHOD[DESCRIPTOR] ARGUMENT ...] ANSWERS [--steps N], and workbook mark --help says more";

/// The lines of a file, and what is said with the number of a line.
const NONE: &str = r#"
stpe 7 | 1: there is no word stpe; did you mean step?
result 5 | 1: there is no word result: they are answer, local, stack, start, step
step | 1: step takes a number, from 0 on
step -1 | 1: step takes a number, from 0 on, not "-1"
start 1 | 1: nothing stands behind start on its line
local 1 = 2 | 1: local stands behind a line with step or start
stack = 2 | 1: stack stands behind a line with step or start
step 1; local | 2: local takes a number, = and a value
step 1; local 1 | 2: local takes a number, = and a value, not "1"
step 1; local x = 1 | 2: "x" is no number of a local: 0 to 65535
step 1; local 65536 = 1 | 2: "65536" is no number of a local: 0 to 65535
step 1; local 1 = | 2: a value is missing
step 1; local 1 = five | 2: five is no value, as 3, 0x1F, 0.1f, 5L, 0.25, NaN and null are
step 1; local 1 = 1e40f | 2: 1e40f is no value, as 3, 0x1F, 0.1f, 5L, 0.25, NaN and null are
step 1; local 1 = 09 | 2: 09 is no value: a number that begins with 0 is octal
step 1; local 1 = nul | 2: nul is no value; did you mean null?
step 1; local 1 = infinity | 2: infinity is no value; did you mean Infinity?
step 1; stack | 2: stack takes = and its values, or = empty
step 1; stack = | 2: stack takes = and its values, or = empty, not "="
step 1; stack 1 | 2: stack takes = and its values, or = empty, not "1"
step 1; stack = 1,,2 | 2: a value is missing
step 1; local 1 = 1; step 2; local 1 = 1; step 1; local 1 = 2 | 6: local 1 of step 1 is given in line 2 already
start; stack = empty; stack = empty | 3: the stack of the start is given in line 2 already
answer void; answer throw | 2: the answer is given in line 1 already
answer | 1: answer takes return, void, throw or refused
answer retrun 5 | 1: there is no answer retrun; did you mean return?
answer 5 | 1: there is no answer 5: they are refused, return, throw, void
answer return | 1: return takes a value; without one it is answer void
answer return x | 1: x is no value, as 3, 0x1F, 0.1f, 5L, 0.25, NaN and null are
answer void 1 | 1: nothing stands behind void
answer throw 1 | 1: nothing stands behind throw
answer refused | 1: refused takes a number from 1 to 99
answer refused 100 | 1: refused takes a number from 1 to 99, not "100"
step 1; step 2; stack = 1 | 1: no local and no stack stands behind this
"#;

#[test]
fn a_file_that_is_none_is_said_with_its_line() {
    let folder = folder("mark-files");
    let said = |text: &str, what: &str| {
        folder.write("a.txt", text);
        let output = folder.workbook(&["mark", "loop.sheet", "a.txt"]);
        assert_said(&output, 2, &format!("a.txt:{what}"));
    };
    for row in NONE.trim().lines() {
        let (answers, what) = row.split_once(" | ").unwrap();
        said(&answers.replace("; ", "\n"), what);
    }
    let word = "2: there is no word locals; did you mean local?";
    said("\nlocals 1 = 2", word);
    said("# nothing\n\n", "2: there is no answer up to here");
    // A word is cut where it is long, and a terminal obeys none.
    let words = "they are answer, local, stack, start, step";
    said("\u{1B}[31m", &format!("1: there is no word ?[31m: {words}"));
    let ones = "1".repeat(40);
    let like = "is no value, as 3, 0x1F, 0.1f, 5L, 0.25, NaN and null are";
    let long = format!("step 1\nlocal 1 = {ones}1x");
    said(&long, &format!("2: {ones}... {like}"));
}

#[test]
fn wrong_calls_are_a_sentence() {
    let folder = folder("mark-calls");
    for (words, what) in [
        ("loop.sheet", "mark takes a file and a file of answers"),
        ("- -", "only one file is standard input"),
        ("a b --step", "mark has no option --step"),
        ("a b --steps", "--steps takes a number, from 0 on"),
        ("--steps x a b", "--steps takes a number, from 0 on"),
        ("--steps 1 --steps 1 a b", "--steps is given twice"),
    ] {
        let words: Vec<&str> = ["mark"].into_iter().chain(words.split(' ')).collect();
        let what = format!("{what}; {USAGE}");
        assert_said(&folder.workbook(&words), 2, &what);
    }
    let output = folder.workbook(&["mark", "--help"]);
    let help = String::from_utf8(output.stdout).unwrap();
    assert!(help.starts_with("usage: workbook mark FILE [METHOD[DESCRIPTOR] ARGUMENT ...] ANSWERS [--steps N]\n\nSays whether"));
    assert_eq!(output.status.code(), Some(0));
}

#[test]
fn other_files_are_a_sentence() {
    let folder = folder("mark-others");
    folder.write("a.txt", "answer return 10");
    folder.write("b.class", [0xCA, 0xFE, 0xBA, 0xBE, 0]);
    folder.write("c.txt", "");
    folder.write("d.txt", "max_stack x");
    let text = "is no text in UTF-8, and begins neither as a sheet nor as a class file";
    folder.write("e.txt", b"step \xFF");
    let class = "the class file is damaged: it ends at byte 5, inside of a part";
    for (file, answers, what) in [
        ("missing", "a.txt", "missing: there is no such file"),
        ("loop.sheet", "missing", "missing: there is no such file"),
        ("loop.sheet", "c.txt", "c.txt: is empty"),
        ("loop.sheet", "e.txt", &format!("e.txt: {text}")),
        (
            "loop.sheet",
            "loop.sheet",
            "loop.sheet: is a sheet, not answers",
        ),
        (
            "loop.sheet",
            "b.class",
            "b.class: is a class file, not answers",
        ),
        ("b.class", "a.txt", &format!("b.class: {class}")),
    ] {
        assert_said(&folder.workbook(&["mark", file, answers]), 2, what);
    }
    let output = folder.workbook(&["mark", "d.txt", "a.txt"]);
    assert!(output.stderr.starts_with(b"d.txt:1: "));
    assert_eq!(output.status.code(), Some(2));
}
