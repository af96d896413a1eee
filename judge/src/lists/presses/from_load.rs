//! Lists from a load, on every method.

use super::methods::{Methods, Pressed};
use super::{junk_log, List, SHORT};
use crate::lists::scatter::Scatter;

/// Kinds of long lists.
pub const MIXES: [&str; 4] = ["mostly forward", "even", "mostly back", "waves"];

/// A list of a kind, as letters; another one for each name.
pub fn mix(name: &str, kind: &str, length: usize) -> String {
    let mut scatter = Scatter::of(&format!("{name} mix"));
    match kind {
        "mostly forward" => mixed(&mut scatter, length, 5),
        "even" => "f".repeat(20) + &mixed(&mut scatter, length - 20, 4),
        "mostly back" => "f".repeat(60) + &mixed(&mut scatter, length - 60, 3),
        _ => waves(&mut scatter, length),
    }
}

/// Forwards, so many of eight, and backs between them.
fn mixed(scatter: &mut Scatter, length: usize, eighths: u32) -> String {
    let mut letter = || if scatter.bits(3) < eighths { 'f' } else { 'b' };
    (0..length).map(|_| letter()).collect()
}

/// Up to 32 forwards, up to 32 backs, and so on.
fn waves(scatter: &mut Scatter, length: usize) -> String {
    let mut text = String::new();
    while text.len() < length {
        for letter in ["f", "b"] {
            text += &letter.repeat(scatter.bits(5) as usize + 1);
        }
    }
    text.truncate(length);
    text
}

/// A list on a method, with junk in the log, and answer words past those of the presses.
fn on(method: &Pressed, list: &str, text: &str, log: usize, more_words: usize) -> List {
    let name = format!("{} {list}", method.name).trim().to_string();
    let list = List::new(&name, method, text, junk_log(&name, log));
    let words = list.words + more_words;
    List { words, ..list }
}

/// All of them.
pub fn lists(methods: &Methods) -> Vec<List> {
    let mut lists = there_and_back(methods);
    lists.extend(all_refused(methods));
    lists.extend(all_forward(methods));
    lists.extend(all_alternating(methods));
    lists.extend(all_mixed(methods));
    lists.extend(all_logs(methods));
    lists.extend(answer_words(methods));
    lists
}

/// To the end, or 60 steps far, with more forwards; back past the start, and forward again. Every other
/// log is one word short.
fn there_and_back(methods: &Methods) -> Vec<List> {
    let list = |(k, method): (usize, &Pressed)| {
        let steps = method.steps.min(60);
        let text = [
            "f".repeat(steps + 2),
            "b".repeat(steps + 3),
            "f".repeat(steps + 1),
            "bf".to_string(),
        ];
        let log = (10 * steps + k % 2).saturating_sub(1);
        on(method, "there and back", &text.concat(), log, k % 4)
    };
    methods.good.iter().enumerate().map(list).collect()
}

/// To the refusal, pressed again; back past the start, and then a mixed list.
fn all_refused(methods: &Methods) -> Vec<List> {
    let list = |(k, method): (usize, &Pressed)| {
        let (there, back) = ("f".repeat(method.steps + 2), "b".repeat(method.steps + 2));
        let text = there + &back + &mix(&method.name, "even", 60);
        on(method, "", &text, 10 * method.steps + k, k % 3)
    };
    methods.refused.iter().enumerate().map(list).collect()
}

fn all_forward(methods: &Methods) -> Vec<List> {
    let names = [
        "loop",
        "long loop",
        "longest loop",
        "stack",
        "switches",
        "conversions",
        "floats",
        "growing",
    ];
    let list = |name| {
        let method = methods.named(name);
        let steps = method.steps.min(120);
        let log = (10 * steps + steps % 10).min(1200);
        on(method, "forward", &"f".repeat(steps + 3), log, 0)
    };
    names.map(list).to_vec()
}

fn all_alternating(methods: &Methods) -> Vec<List> {
    let (text, later) = (
        "fb".repeat(15) + &"bf".repeat(15),
        "fff".to_string() + &"bf".repeat(20) + &"ffbb".repeat(8),
    );
    let every_sixth = |first: usize| methods.good[first..].iter().step_by(6);
    let lists = every_sixth(1).zip([10, 19, 20, 9, 11]);
    let lists = lists.map(|(method, log)| on(method, "alternating", &text, log, 0));
    let later_lists = every_sixth(4).zip([100, 49, 31, 50]);
    let later_lists =
        later_lists.map(|(method, log)| on(method, "alternating later", &later, log, 0));
    lists.chain(later_lists).collect()
}

/// A long list on each method.
fn all_mixed(methods: &Methods) -> Vec<List> {
    let logs = [1000, 100, 1200, 299, 110, 600, 1195];
    let list = |(k, method): (usize, &Pressed)| {
        let (kind, length) = (MIXES[k % 4], 200 + 97 * k % 701);
        on(
            method,
            kind,
            &mix(&method.name, kind, length),
            logs[k % 7],
            k % 3,
        )
    };
    methods.good.iter().enumerate().map(list).collect()
}

/// The same list with logs of other lengths, and the longest lists.
fn all_logs(methods: &Methods) -> Vec<List> {
    let logs: [(&str, &[usize]); 3] = [
        ("loop", &[0, 9, 10, 11, 19, 20, 100, 1000]),
        ("stack", &[11, 100, 250]),
        ("growing", &[99, 101]),
    ];
    let mut lists = vec![];
    for (name, lengths) in logs {
        let list = |&log: &usize| {
            let text = mix(name, "waves", 150);
            on(methods.named(name), &format!("log of {log}"), &text, log, 0)
        };
        lists.extend(lengths.iter().map(list));
    }
    for kind in ["mostly forward", "waves"] {
        let text = mix("longest", kind, 1000);
        lists.push(on(
            methods.named("longest loop"),
            &format!("{kind} 1000"),
            &text,
            1200,
            8,
        ));
    }
    lists
}

/// Answer words: as many as are needed, one too few, none, and more.
fn answer_words(methods: &Methods) -> Vec<List> {
    let method = methods.named("loop");
    let made = |name: &str, text: &str, log: usize, words: usize, gives: &str| List {
        words,
        gives: Some(gives.to_string()),
        ..List::new(name, method, text, junk_log(name, log))
    };
    let ten = "0 0 0 0 0 12 12 0 0 0";
    let all = "f".repeat(7) + &"bbf".repeat(331);
    let mut lists = vec![];
    for (presses, words, gives) in [
        (0, 0, "-"),
        (0, 5, "-"),
        (1, 0, SHORT),
        (1, 2, SHORT),
        (1, 3, "0"),
        (10, 29, SHORT),
        (10, 30, ten),
        (10, 31, ten),
        (10, 3008, ten),
        (341, 1022, SHORT),
        (1000, 2999, SHORT),
    ] {
        let name = format!("{presses} presses {words} words");
        lists.push(made(&name, &all[..presses], 50, words, gives));
    }
    lists.push(made("no presses no log", "", 0, 0, "-"));
    lists.push(made(
        "only backs",
        &"b".repeat(20),
        50,
        62,
        &["13"; 20].join(" "),
    ));
    lists.push(made("words short for backs", "bbb", 30, 8, SHORT));
    lists
}
