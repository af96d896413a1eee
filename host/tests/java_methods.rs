//! Static methods that javac compiles become sheets, and their answers are those of Java.
//!
//! java/calls.txt has the calls. A call goes two ways: as words to `workbook make`, of whose sheet
//! `workbook key` gives the answer; and as text into a Java program, so that javac reads its literals.
#![forbid(unsafe_code)]

mod common;

use common::java::{self, command, workbook};
use std::fmt::Write;

/// A call of java/calls.txt.
struct Call {
    class: &'static str,
    /// The name and the descriptor.
    method: &'static str,
    arguments: Vec<&'static str>,
}

/// The calls of java/calls.txt.
fn calls() -> Vec<Call> {
    let lines = include_str!("java/calls.txt").lines();
    let mut calls = vec![];
    for line in lines.filter(|line| !line.starts_with('#')) {
        let (named, all) = line.split_once(": ").unwrap();
        let (class, method) = named.split_once('.').unwrap();
        calls.extend(all.split(',').map(|arguments| Call {
            class,
            method,
            arguments: arguments.split_whitespace().collect(),
        }));
    }
    calls
}

/// The call in Java. Each argument has a cast, as Java narrows no argument of a call.
fn in_java(call: &Call) -> String {
    let (name, descriptor) = call.method.split_once('(').unwrap();
    let (mut parameters, returned) = descriptor.split_once(')').unwrap();
    let mut arguments = vec![];
    for argument in &call.arguments {
        let cast = match parameters.as_bytes()[0] {
            b'Z' => "boolean",
            b'B' => "byte",
            b'C' => "char",
            b'S' => "short",
            b'I' => "int",
            b'J' => "long",
            b'F' => "float",
            b'D' => "double",
            _ => parameters[1..].split(';').next().unwrap(),
        };
        let length = match parameters.as_bytes()[0] {
            b'L' => cast.len() + 2,
            _ => 1,
        };
        parameters = &parameters[length..];
        arguments.push(format!("({}) ({argument})", cast.replace('/', ".")));
    }
    assert_eq!(parameters, "", "{}", call.method);
    let called = format!("{}.{name}({})", call.class, arguments.join(", "));
    match returned {
        "V" => format!("{called}; return \"void\";"),
        _ => format!("return {called};"),
    }
}

/// A program that makes the calls and prints a line for each.
fn program(calls: &[Call]) -> String {
    let mut text = include_str!("java/program.txt").to_string();
    for (number, call) in calls.iter().enumerate() {
        writeln!(text, "            case {number}: {}", in_java(call)).unwrap();
    }
    text + "            default: throw new AssertionError(number);\n        }\n    }\n}\n"
}

/// The answer in the last line of a sheet's key, as the Java program prints one.
fn answer(sheet: &str) -> String {
    let key = command(&["key", sheet]);
    let said = String::from_utf8_lossy(&key.stderr);
    assert!(key.status.success() && said.is_empty(), "{said}");
    let key = String::from_utf8(key.stdout).unwrap();
    let last = key.lines().next_back().unwrap().to_string();
    if last.ends_with(" throws an ArithmeticException that nothing catches") {
        return "throw".to_string();
    }
    let (_, returned) = last.split_once(" returns ").unwrap();
    if returned == "nothing" {
        return "void".to_string();
    }
    // The kind, the value, and its digits in brackets.
    let (kind, value) = returned.split_once(' ').unwrap();
    let (_, digits) = value.split_once('(').unwrap();
    format!("{kind} {}", digits.trim_end_matches(')'))
}

#[test]
fn sheets_answer_as_java_does() {
    let calls = calls();
    assert!(calls.len() >= 200, "only {} calls", calls.len());
    let Some(folder) = java::compiled("java_methods", &[("Calls", &program(&calls))]) else {
        return;
    };
    let expected = java::printed(&folder, "Calls", &calls.len().to_string());
    let expected: Vec<&str> = expected.lines().collect();
    assert_eq!(expected.len(), calls.len());
    for (call, expected) in calls.iter().zip(expected) {
        let class = folder.join(call.class).with_extension("class");
        let sheet = folder.join("made.sheet");
        let mut words = vec![class.to_str().unwrap(), call.method];
        words.extend(&call.arguments);
        words.extend(["-o", sheet.to_str().unwrap()]);
        let made = workbook(&words);
        let said = String::from_utf8_lossy(&made.stderr);
        assert!(
            made.status.success() && said.is_empty(),
            "{words:?}: {said}"
        );
        let sheet = sheet.to_str().unwrap();
        assert_eq!(answer(sheet), expected, "{words:?}");
    }
}
