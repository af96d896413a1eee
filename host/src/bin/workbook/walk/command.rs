//! What a key or a line asks for.

use workbook_host::suggestion::closest;

/// The words that a line may have, and the keys with a name.
const WORDS: [&str; 7] = ["back", "end", "forward", "home", "left", "quit", "right"];

/// A command.
#[derive(Clone, Debug, PartialEq, Eq)]
pub enum Command {
    /// One step forward.
    Forward,
    /// One step back.
    Back,
    /// To the start.
    Start,
    /// To the end.
    End,
    /// To a step.
    Go(u64),
    /// The keys are asked for.
    Keys,
    /// The end of the session.
    Quit,
    /// None; the text says what is wrong.
    Wrong(String),
}

impl Command {
    /// The command of a line, or of a key by its name. An empty line is the Enter key, and a line of
    /// a space the space bar.
    pub fn of(line: &str) -> Command {
        let line = line.trim();
        match line.to_lowercase().as_str() {
            "" | "f" | "n" | "space" | "right" | "forward" => Command::Forward,
            "b" | "left" | "back" => Command::Back,
            "home" => Command::Start,
            "r" | "end" => Command::End,
            "?" => Command::Keys,
            "q" | "quit" | "\u{3}" | "\u{4}" => Command::Quit,
            lower => match lower.strip_prefix('g') {
                Some(step) => go(step.trim()),
                None => unknown(line),
            },
        }
    }
}

fn go(step: &str) -> Command {
    if step.is_empty() {
        return Command::Wrong("g takes the number of a step, as in g 7".to_string());
    }
    match step.parse() {
        Ok(step) => Command::Go(step),
        // Digits that do not fit are a number too, and no walk has that many steps.
        Err(_) if step.bytes().all(|byte| byte.is_ascii_digit()) => Command::Go(u64::MAX),
        Err(_) => Command::Wrong(format!("{} is not the number of a step", shown(step))),
    }
}

fn unknown(line: &str) -> Command {
    let text = shown(line);
    Command::Wrong(match closest(line, WORDS) {
        Some(word) => format!("there is no key {text}; did you mean {word}?"),
        None => format!("there is no key {text}; ? shows the keys"),
    })
}

/// What was typed, as characters that do nothing to a terminal, and not too many of them.
fn shown(typed: &str) -> String {
    let short: String = typed.chars().take(20).collect();
    let dots = if short.len() < typed.len() { "..." } else { "" };
    format!("{}{dots}", short.escape_debug())
}

#[cfg(test)]
mod tests {
    use super::*;

    #[test]
    fn lines_are_commands() {
        for (line, command) in [
            ("", Command::Forward),
            (" ", Command::Forward),
            ("N", Command::Forward),
            ("left\r", Command::Back),
            ("g7", Command::Go(7)),
            ("  g   7 ", Command::Go(7)),
            ("g 99999999999999999999", Command::Go(u64::MAX)),
            ("\u{4}", Command::Quit),
        ] {
            assert_eq!(Command::of(line), command, "{line:?}");
        }
    }

    #[test]
    fn what_is_no_command_is_said() {
        for (line, what) in [
            ("g", "g takes the number of a step, as in g 7"),
            ("g -1", "-1 is not the number of a step"),
            ("x", "there is no key x; ? shows the keys"),
            ("rihgt", "there is no key rihgt; did you mean right?"),
            ("\u{1b}[2J", "there is no key \\u{1b}[2J; ? shows the keys"),
            (
                &"é".repeat(21),
                &format!("there is no key {}...; ? shows the keys", "é".repeat(20)),
            ),
        ] {
            assert_eq!(Command::of(line), Command::Wrong(what.to_string()));
        }
    }
}
