//! What a call of `key` says.

use super::format::Format;
use super::{html::Html, json::Json, markdown::Markdown, text::Text};
use crate::failure::Failure;

const USAGE: &str = "usage: workbook key FILE [METHOD[DESCRIPTOR] ARGUMENT ...] [--steps N] \
     [--format text|markdown|json|html]";

/// How many steps are taken where a call does not say it: enough for any exercise, and a method that
/// does not end does not fill the disk.
const STEPS: u64 = 1_000_000;

/// A call.
#[derive(Debug, PartialEq, Eq)]
pub struct Call<'a> {
    /// The file, or `-`.
    pub file: &'a str,
    /// The words behind it: a method of a class file, and its arguments.
    pub method: Vec<&'a str>,
    /// How many steps are taken at most.
    pub steps: u64,
    /// The format of the key.
    pub format: Name,
}

/// A format by its name.
#[derive(Clone, Copy, Debug, PartialEq, Eq)]
pub enum Name {
    /// For a terminal.
    Text,
    /// A table in Markdown.
    Markdown,
    /// One JSON object.
    Json,
    /// A page to print.
    Html,
}

impl Name {
    /// What writes this format.
    pub fn writer(self) -> Box<dyn Format> {
        match self {
            Name::Text => Box::new(Text),
            Name::Markdown => Box::new(Markdown),
            Name::Json => Box::new(Json::default()),
            Name::Html => Box::new(Html),
        }
    }

    fn of(word: &str) -> Result<Name, Failure> {
        Ok(match word {
            "text" => Name::Text,
            "markdown" => Name::Markdown,
            "json" => Name::Json,
            "html" => Name::Html,
            _ => {
                return Err(Failure::Call(format!(
                    "there is no format {word:?}; the formats are text, markdown, json and html"
                )))
            }
        })
    }
}

impl<'a> Call<'a> {
    /// The call that the words after `key` make.
    ///
    /// # Errors
    ///
    /// Where they make none.
    pub fn of(words: &'a [String]) -> Result<Call<'a>, Failure> {
        let (mut names, mut steps, mut format) = (vec![], None, None);
        let mut words = words.iter().map(String::as_str);
        while let Some(word) = words.next() {
            let once = match word {
                "--steps" => steps.replace(number(value(word, words.next())?)?).is_none(),
                "--format" => format
                    .replace(Name::of(value(word, words.next())?)?)
                    .is_none(),
                _ if word.starts_with("--") => {
                    return Err(Failure::Call(format!("there is no option {word}\n{USAGE}")))
                }
                _ => {
                    names.push(word);
                    true
                }
            };
            if !once {
                return Err(Failure::Call(format!("{word} is given twice\n{USAGE}")));
            }
        }
        let Some((file, method)) = names.split_first() else {
            return Err(Failure::Call(USAGE.to_string()));
        };
        Ok(Call {
            file,
            method: method.to_vec(),
            steps: steps.unwrap_or(STEPS),
            format: format.unwrap_or(Name::Text),
        })
    }
}

fn value<'a>(option: &str, word: Option<&'a str>) -> Result<&'a str, Failure> {
    word.ok_or_else(|| Failure::Call(format!("what comes after {option}?\n{USAGE}")))
}

fn number(word: &str) -> Result<u64, Failure> {
    word.parse().map_err(|_| {
        let most = u64::MAX;
        Failure::Call(format!(
            "--steps takes a number from 0 to {most}, not {word:?}"
        ))
    })
}

#[cfg(test)]
mod tests {
    use super::*;

    fn call(text: &str) -> Result<(String, u64, Name), String> {
        let words: Vec<String> = text.split_whitespace().map(str::to_string).collect();
        let call = Call::of(&words).map_err(|failure| failure.to_string())?;
        Ok((call.file.to_string(), call.steps, call.format))
    }

    #[test]
    fn options_stand_before_or_after_the_file() {
        let plain = ("a".to_string(), 1_000_000, Name::Text);
        assert_eq!(call("a"), Ok(plain));
        let both = Ok(("-".to_string(), 7, Name::Html));
        assert_eq!(call("--steps 7 - --format html"), both);
        assert_eq!(call("- --format html --steps 7"), both);
    }

    #[test]
    fn what_is_no_call_is_said() {
        let number = "--steps takes a number from 0 to 18446744073709551615, not";
        for (words, what) in [
            ("", USAGE.to_string()),
            ("a --step 1", format!("there is no option --step\n{USAGE}")),
            ("a --steps", format!("what comes after --steps?\n{USAGE}")),
            (
                "a --steps 1 --steps 2",
                format!("--steps is given twice\n{USAGE}"),
            ),
            ("a --steps -1", format!("{number} \"-1\"")),
            (
                "a --steps 18446744073709551616",
                format!("{number} \"18446744073709551616\""),
            ),
            (
                "a --format pdf",
                "there is no format \"pdf\"; the formats are text, markdown, json and html"
                    .to_string(),
            ),
        ] {
            assert_eq!(call(words), Err(what), "{words}");
        }
    }
}
