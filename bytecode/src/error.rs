//! What is wrong in a source or a listing, and in which line.

use std::fmt;

/// How many characters of a word stand in a sentence. A line may be as long as its file.
const MOST: usize = 40;

/// What is wrong, and in which line where it is in one.
#[derive(Clone, Debug, PartialEq, Eq)]
pub struct Error {
    line: Option<usize>,
    what: String,
}

impl Error {
    /// What is wrong in a line. Lines count from 1.
    pub(crate) fn new(line: usize, what: impl Into<String>) -> Error {
        Error {
            line: Some(line),
            what: what.into(),
        }
    }

    /// What is wrong with the text as a whole.
    pub(crate) fn of_whole(what: impl Into<String>) -> Error {
        Error {
            line: None,
            what: what.into(),
        }
    }

    /// The line, from 1 on, where it is in one.
    #[must_use]
    pub fn line(&self) -> Option<usize> {
        self.line
    }

    /// What is wrong, without the line.
    #[must_use]
    pub fn what(&self) -> &str {
        &self.what
    }
}

impl fmt::Display for Error {
    fn fmt(&self, f: &mut fmt::Formatter) -> fmt::Result {
        if let Some(line) = self.line {
            write!(f, "line {line}: ")?;
        }
        f.write_str(&self.what)
    }
}

impl std::error::Error for Error {}

impl From<Error> for String {
    fn from(error: Error) -> String {
        error.to_string()
    }
}

/// A word as it stands in a sentence: cut where it is long, and without control characters, which a
/// terminal would obey.
pub(crate) fn shown(word: &str) -> String {
    let printable = |c: char| if c.is_control() { '?' } else { c };
    let mut text: String = word.chars().take(MOST).map(printable).collect();
    if word.chars().nth(MOST).is_some() {
        text += "...";
    }
    text
}

#[cfg(test)]
mod tests {
    use super::*;

    #[test]
    fn an_error_says_its_line_where_it_has_one() {
        let error = Error::new(3, "there is no label on");
        assert_eq!(error.to_string(), "line 3: there is no label on");
        assert_eq!(error.line(), Some(3));
        assert_eq!(error.what(), "there is no label on");
        let error = Error::of_whole("there are only comments");
        assert_eq!(String::from(error.clone()), "there are only comments");
        assert_eq!(error.line(), None);
    }

    #[test]
    fn a_word_is_shown_in_a_sentence() {
        assert_eq!(shown("\u{1B}[31mred"), "?[31mred");
        let forty = "a".repeat(40);
        assert_eq!(shown(&forty), forty);
        assert_eq!(shown(&"a".repeat(41)), forty + "...");
    }
}
