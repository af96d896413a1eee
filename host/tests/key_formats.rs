//! `workbook key` in JSON, Markdown and HTML: whole keys, and the form of every sample's key.
#![forbid(unsafe_code)]

mod common;
#[path = "common/json.rs"]
mod json;

use common::{accepted_samples, sample_path, Sample};
use json::{parse, Json};
use std::process::{Command, Stdio};

/// What `workbook key` prints in the folder of the samples.
fn printed(words: &[&str]) -> String {
    let output = Command::new(env!("CARGO_BIN_EXE_workbook"))
        .current_dir(sample_path(""))
        .arg("key")
        .args(words)
        .stdin(Stdio::null())
        .output()
        .unwrap();
    assert_eq!(String::from_utf8_lossy(&output.stderr), "", "{words:?}");
    assert!(output.status.success(), "{words:?}");
    String::from_utf8(output.stdout).unwrap()
}

/// The key of a sample of 1,600 steps at most.
fn key(sample: &Sample, format: &str) -> String {
    let name = format!("{}.sheet", sample.name);
    printed(&[&name, "--steps", "1600", "--format", format])
}

#[test]
fn whole_keys() {
    for (format, committed) in [
        ("json", include_str!("keys/long_sum.json")),
        ("markdown", include_str!("keys/long_sum.md")),
        ("html", include_str!("keys/long_sum.html")),
    ] {
        assert_eq!(printed(&["long_sum.sheet", "--format", format]), committed);
    }
}

/// The depth and the top word of a stage, as a printed walk has them.
fn depth_and_top(stage: &Json) -> String {
    let values = stage["stack"].list();
    let depth: usize = values.iter().map(|value| value["words"].list().len()).sum();
    let top = values.last().and_then(|value| value["words"].list().last());
    format!("{depth} {}", top.map_or("-", Json::text))
}

#[test]
fn json_is_the_printed_walk_with_more_in_it() {
    for sample in accepted_samples() {
        let json =
            parse(&key(&sample, "json")).unwrap_or_else(|what| panic!("{}: {what}", sample.name));
        let steps = json["steps"].list();
        let mut stage = &json["start"];
        let mut lines = sample.printed.lines().skip(1);
        for (step, line) in steps.iter().zip(&mut lines) {
            let words: Vec<&str> = line.split(' ').collect();
            assert_eq!(step["offset"].number(), words[1], "{line}");
            assert_eq!(depth_and_top(stage), words[3..].join(" "), "{line}");
            let locals = step["locals"].list().iter();
            let locals: usize = locals.map(|local| local["words"].list().len()).sum();
            assert_eq!(json["max_locals"].number(), locals.to_string());
            stage = step;
        }
        let answer = &json["answer"];
        assert_eq!(answer["steps"].number(), steps.len().to_string());
        let last = match answer["end"].text() {
            "return" if answer["kind"].text() == "void" => "return void".to_string(),
            "return" => format!("return {} {}", answer["kind"].text(), answer["bits"].text()),
            "exception" => "throw arithmetic".to_string(),
            "refused" => format!("refused {}", answer["number"].number()),
            end => end.to_string(),
        };
        assert_eq!(lines.collect::<Vec<_>>(), [last], "{}", sample.name);
    }
}

#[test]
fn a_file_name_is_a_string_of_json() {
    let name = "a \"b\" \\ <i>|_\u{1}.sheet";
    let folder = std::env::temp_dir().join(format!("workbook-key-{}", std::process::id()));
    std::fs::create_dir_all(&folder).unwrap();
    let file = folder.join(name);
    std::fs::copy(sample_path("printed.sheet"), &file).unwrap();
    let file = file.to_str().unwrap();
    let json = parse(&printed(&[file, "--format", "json"])).unwrap();
    assert_eq!(json["file"].text(), file);
    let html = printed(&[file, "--format", "html"]);
    assert!(html.contains("a &quot;b&quot; \\ &lt;i&gt;|_ .sheet</title>"));
    let markdown = printed(&[file, "--format", "markdown"]);
    assert!(markdown
        .lines()
        .next()
        .unwrap()
        .ends_with("a \"b\" \\\\ \\<i\\>\\|\\_ .sheet"));
    std::fs::remove_dir_all(&folder).unwrap();
}

/// The names of a page's tags, those that end an element with a slash.
fn tags(page: &str) -> Vec<&str> {
    let tags = page.split('<').skip(1);
    tags.map(|tag| tag.split(['>', ' ']).next().unwrap())
        .collect()
}

#[test]
fn each_element_of_a_page_ends() {
    for sample in accepted_samples() {
        let page = key(&sample, "html");
        assert!(page.starts_with("<!DOCTYPE html>\n<html lang=\"en\">\n"));
        let mut open = vec![];
        for tag in tags(&page) {
            match tag.strip_prefix('/') {
                Some(name) => assert_eq!(open.pop(), Some(name), "{}", sample.name),
                None if ["!DOCTYPE", "meta"].contains(&tag) => {}
                None => open.push(tag),
            }
        }
        assert_eq!(open, [""; 0]);
        // One file: nothing is fetched.
        assert!(!page.contains("http") && !page.contains("src=") && !page.contains("url("));
    }
}

#[test]
fn each_row_of_a_table_in_markdown_has_six_cells() {
    for sample in accepted_samples() {
        let text = key(&sample, "markdown");
        let rows = text.lines().filter(|line| line.starts_with('|'));
        let mut met = 0;
        for row in rows {
            assert_eq!(row.replace("\\|", "").matches('|').count(), 7, "{row}");
            met += 1;
        }
        // The head, the line under it, the start, and the steps.
        assert_eq!(
            met,
            3 + sample.printed.lines().count() - 2,
            "{}",
            sample.name
        );
    }
}

#[test]
fn what_is_no_json_is_not_read() {
    for text in [
        "",
        "{",
        "{}}",
        "[1,]",
        "{\"a\":1,}",
        "{\"a\":1,\"a\":2}",
        "\"\n\"",
        "01",
        "nul",
        "[1 2]",
        "\"\\x\"",
        "{a:1}",
        "NaN",
    ] {
        assert!(parse(text).is_err(), "{text}");
    }
    let list = Json::List(vec![Json::Number("10".to_string()), Json::Bool(true)]);
    let object = Json::Object(vec![
        ("a\u{1}".to_string(), list),
        ("b".to_string(), Json::Null),
    ]);
    assert_eq!(
        parse(" {\"a\\u0001\": [10, true], \"b\":null}\n"),
        Ok(object)
    );
}
