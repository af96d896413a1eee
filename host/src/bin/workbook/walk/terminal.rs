//! The terminal's settings, by the program `stty`.

use super::screen::Size;
use std::io;
use std::process::{Command, Stdio};

/// Where a terminal does not say its size.
const USUAL: Size = Size {
    rows: 24,
    columns: 80,
};

/// Each key comes by itself, is not shown, and stops nothing. What is printed goes as before.
const RAW: [&str; 10] = [
    "-icanon", "-echo", "-isig", "-iexten", "-ixon", "-icrnl", "min", "1", "time", "0",
];

/// Raw keys, for as long as this lives. The settings before it come back at its end, also after an
/// error or a panic.
pub struct Settings {
    before: String,
}

impl Settings {
    /// Sets the terminal of standard input to raw keys.
    ///
    /// # Errors
    ///
    /// Where there is no `stty`, or it fails.
    pub fn raw() -> io::Result<Settings> {
        let before = stty(&["-g"])?.trim().to_string();
        // From here on the drop puts back what a failure leaves half done.
        let settings = Settings { before };
        stty(&RAW)?;
        Ok(settings)
    }

    /// The size of the terminal now.
    pub fn size(&self) -> Size {
        stty(&["size"]).map_or(USUAL, |text| size(&text))
    }
}

impl Drop for Settings {
    fn drop(&mut self) {
        // There is nobody to tell where this fails.
        let _ = stty(&[&self.before]);
    }
}

/// Calls `stty` for the terminal of standard input.
fn stty(words: &[&str]) -> io::Result<String> {
    let mut command = Command::new("stty");
    command.args(words).stdin(Stdio::inherit());
    let output = command.stderr(Stdio::null()).output()?;
    if !output.status.success() {
        return Err(io::Error::other("the program stty failed"));
    }
    Ok(String::from_utf8_lossy(&output.stdout).into_owned())
}

/// The size that a text says: rows, then columns. A number of 0 is not known.
fn size(text: &str) -> Size {
    let mut numbers = text.split_whitespace().map(str::parse);
    match (numbers.next(), numbers.next()) {
        (Some(Ok(rows @ 1..)), Some(Ok(columns @ 1..))) => Size { rows, columns },
        _ => USUAL,
    }
}

#[cfg(test)]
mod tests {
    use super::*;

    #[test]
    fn a_size_that_is_not_known_is_the_usual_one() {
        let (rows, columns) = (50, 132);
        assert_eq!(size("50 132\n"), Size { rows, columns });
        for text in ["0 0\n", "", "50", "fifty 132"] {
            assert_eq!(size(text), USUAL, "{text:?}");
        }
    }
}
