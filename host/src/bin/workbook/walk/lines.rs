//! A session by lines: each line of standard input is one key, so that a script can press them.

use super::command::Command;
use super::screen::Size;
use super::session::Session;
use std::io::{self, BufRead, Write};

/// As many rows as a terminal has at least; a line has the length that it needs.
const SIZE: Size = Size {
    rows: 24,
    columns: usize::MAX,
};

/// Walks by the lines of standard input until one quits or there are no more. An empty line ends each
/// screen.
///
/// # Errors
///
/// An input that cannot be read, or an output that cannot be written.
pub fn walk(mut session: Session) -> io::Result<()> {
    let (mut input, mut out) = (io::stdin().lock(), io::stdout().lock());
    draw(&session, &mut out)?;
    let mut line = vec![];
    while input.read_until(b'\n', &mut line)? > 0 {
        match Command::of(&String::from_utf8_lossy(&line)) {
            Command::Quit => break,
            command => session.press(command, &mut || false),
        }
        draw(&session, &mut out)?;
        line.clear();
    }
    Ok(())
}

fn draw(session: &Session, out: &mut impl Write) -> io::Result<()> {
    let mut text = session.lines(SIZE).join("\n");
    text += "\n\n";
    out.write_all(text.as_bytes())?;
    out.flush()
}
