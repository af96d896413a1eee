//! `workbook key`: whole keys as text, every sample, and what is said of wrong calls and files.
#![forbid(unsafe_code)]

mod common;

use common::{sample_path, samples, Sample};
use std::io::Write;
use std::process::{Command, Output, Stdio};
use std::{env, fs, process};
use workbook_host::Refusal;

fn workbook() -> Command {
    Command::new(env!("CARGO_BIN_EXE_workbook"))
}

/// `workbook key` in the folder of the samples.
fn key(words: &[&str]) -> Output {
    let mut command = workbook();
    let command = command.current_dir(sample_path("")).arg("key").args(words);
    command.stdin(Stdio::null()).output().unwrap()
}

/// What a call prints that has nothing to complain of.
fn printed(words: &[&str]) -> String {
    let output = key(words);
    assert_eq!(String::from_utf8_lossy(&output.stderr), "", "{words:?}");
    assert!(output.status.success(), "{words:?}");
    String::from_utf8(output.stdout).unwrap()
}

/// The sentence and the exit status of a call that prints no key.
#[track_caller]
fn refused(words: &[&str], status: i32, what: &str) {
    let output = key(words);
    assert_eq!(String::from_utf8_lossy(&output.stderr), format!("{what}\n"));
    assert_eq!(
        (output.status.code(), &output.stdout[..]),
        (Some(status), &b""[..])
    );
}

const LONG_SUM: &str = include_str!("keys/long_sum.txt");

#[test]
fn keys_as_text() {
    assert_eq!(printed(&["long_sum.sheet"]), LONG_SUM);
    let loop_key = include_str!("keys/loop.txt");
    assert_eq!(printed(&["loop.sheet"]), loop_key);
    let catch_division = include_str!("keys/catch_division.txt");
    assert_eq!(printed(&["catch_division.sheet"]), catch_division);
    let ldc = include_str!("keys/ldc.txt");
    assert_eq!(printed(&["--format", "text", "ldc.sheet"]), ldc);
    // A key that ends earlier is the same up to there.
    let (three, _) = ldc.split_once("\nstep 4").unwrap();
    let end = "\nno answer yet: 3 steps were taken and more would follow, next f2d at offset 5\n";
    let words = ["ldc.sheet", "--steps", "3"];
    assert_eq!(printed(&words), format!("{three}{end}"));
}

#[test]
fn a_source_has_the_key_of_its_sheet() {
    let of_source = printed(&["long_sum.txt"]).replace("long_sum.txt", "long_sum.sheet");
    assert_eq!(of_source, LONG_SUM);
    let mut child = workbook()
        .args(["key", "-"])
        .stdin(Stdio::piped())
        .stdout(Stdio::piped())
        .spawn()
        .unwrap();
    let sheet = fs::read(sample_path("long_sum.sheet")).unwrap();
    child.stdin.take().unwrap().write_all(&sheet).unwrap();
    let output = child.wait_with_output().unwrap();
    let text = LONG_SUM.replace("long_sum.sheet", "-");
    assert_eq!(String::from_utf8(output.stdout).unwrap(), text);
}

#[test]
fn many_locals_take_many_lines() {
    let text = printed(&["wide.sheet", "--steps", "0"]);
    let lines: Vec<&str> = text.lines().skip(5).collect();
    let first = "  locals  0: 00000018  1: 00000000  2: 00000000  3: 00000000  4: 00000000  \
                 5: 00000000  6: 00000000";
    assert_eq!(lines[0], first);
    let second = "          7: 00000000  8: 00000000  9: 00000000  10: 00000000  11: 00000000  \
                  12: 00000000";
    assert_eq!(lines[1], second);
    assert!(lines[..lines.len() - 1]
        .iter()
        .all(|line| line.len() <= 100));
    let locals = text.matches(": 000000").count();
    assert_eq!(locals, 257);
}

/// The last line of a printed walk, from the last line of a key.
fn last_line(answer: &str) -> String {
    if answer.starts_with("no answer yet: ") {
        return "stopped".to_string();
    }
    if answer.ends_with(" throws an ArithmeticException that nothing catches") {
        return "throw arithmetic".to_string();
    }
    if let Some((_, refusal)) = answer.split_once(" is refused with ") {
        let (number, sentence) = refusal.split_once(": ").unwrap();
        let refusal = Refusal::new(number.parse().unwrap()).unwrap();
        assert_eq!(sentence, refusal.sentence());
        return format!("refused {number}");
    }
    let (_, value) = answer.split_once(" returns ").unwrap();
    match value.split(' ').collect::<Vec<_>>()[..] {
        ["nothing"] => "return void".to_string(),
        [kind, _, bits] => {
            let kind = kind.replace("reference", "ref");
            format!("return {kind} {}", bits.trim_matches(['(', ')']))
        }
        _ => panic!("{answer}"),
    }
}

/// The offset and the depth before each step of a key, as the lines of a printed walk have them.
fn lines(key: &str) -> Vec<String> {
    let steps = key.lines().filter(|line| line.starts_with("step "));
    let line = |(number, step): (usize, &str)| {
        let words: Vec<&str> = step.split_whitespace().collect();
        assert_eq!(words[1], (number + 1).to_string());
        format!("{number} {}", words[3])
    };
    steps.enumerate().map(line).collect()
}

fn compare(sample: &Sample, name: &str) {
    let text = printed(&[name, "--steps", "1600"]);
    let (mut walk, last) = (
        sample.printed.lines().skip(1).collect::<Vec<_>>(),
        last_line(text.lines().last().unwrap()),
    );
    assert_eq!(walk.pop(), Some(&last[..]), "{name}");
    let walk: Vec<String> = walk
        .iter()
        .map(|line| line.split(' ').take(2).collect::<Vec<_>>().join(" "))
        .collect();
    assert_eq!(lines(&text), walk, "{name}");
}

#[test]
fn every_sample_has_the_steps_and_the_answer_of_its_printed_walk() {
    let mut met = 0;
    for sample in samples() {
        let name = format!("{}.sheet", sample.name);
        match sample.printed.strip_prefix("sheet ") {
            Some(number) => {
                let refusal = Refusal::new(number.trim().parse().unwrap()).unwrap();
                refused(
                    &[&name],
                    1,
                    &format!("{name}: the sheet is refused: {refusal}"),
                );
            }
            None => compare(&sample, &name),
        }
        met += 1;
    }
    assert!(met >= 31, "{met} samples");
}

#[test]
fn steps_end_a_key_only_where_more_would_follow() {
    let last = |steps: &str| {
        let text = printed(&["printed.sheet", "--steps", steps]);
        text.lines().last().unwrap().to_string()
    };
    let answer = "answer after 3 steps: ireturn at offset 3 returns int 7 (00000007)";
    assert_eq!(last("3"), answer);
    assert_eq!(last("18446744073709551615"), answer);
    let none = "no answer yet: 0 steps were taken and more would follow, next iconst_3 at offset 0";
    assert_eq!(last("0"), none);
    let one = "no answer yet: 1 step was taken and more would follow, next iconst_4 at offset 1";
    assert_eq!(last("1"), one);
}

#[test]
fn wrong_calls_and_files_are_a_sentence() {
    let usage = "usage: workbook key FILE [METHOD[DESCRIPTOR] ARGUMENT ...] [--steps N] \
                 [--format text|markdown|json|html]";
    refused(&[], 2, usage);
    refused(
        &["loop.sheet", "--pages"],
        2,
        &format!("there is no option --pages\n{usage}"),
    );
    let format = "there is no format \"pdf\"; the formats are text, markdown, json and html";
    refused(&["loop.sheet", "--format", "pdf"], 2, format);
    refused(
        &["missing.sheet"],
        2,
        "missing.sheet: there is no such file",
    );
    let class = env::temp_dir().join(format!("workbook-key-{}.class", process::id()));
    fs::write(&class, [0xCA, 0xFE, 0xBA, 0xBE, 0, 0]).unwrap();
    let name = class.to_str().unwrap();
    let what = "the class file is damaged: it ends at byte 6, inside of a part";
    refused(&[name], 2, &format!("{name}: {what}"));
    fs::remove_file(&class).unwrap();
}
