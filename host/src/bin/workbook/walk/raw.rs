//! A session by raw keys in a terminal.

use super::command::Command;
use super::message;
use super::session::Session;
use super::terminal::Settings;
use std::io::{self, Read, Write};
use std::sync::mpsc::{channel, Receiver};
use std::thread;
use std::time::Duration;

/// To the upper left corner, and everything after it cleared.
const CLEAR: &str = "\x1b[H\x1b[2J";

/// How soon the rest of a key's bytes follow its first. The key Esc is its first byte alone.
const REST: Duration = Duration::from_millis(50);

/// How many bytes of one key are read at most.
const LONGEST: usize = 16;

/// How many digits the number of a step may have: more than it needs.
const DIGITS: usize = 18;

/// Walks by raw keys until one quits or there are no more.
///
/// # Errors
///
/// An output that cannot be written.
pub fn walk(mut session: Session, settings: &Settings) -> io::Result<()> {
    let keys = Keys::new();
    draw(&session, settings)?;
    while let Some(name) = keys.next() {
        let command = match name.as_str() {
            "g" | "G" => number(&keys, &mut session, settings)?,
            name => Command::of(name),
        };
        if command == Command::Quit {
            break;
        }
        if matches!(command, Command::End | Command::Go(_)) {
            session.say(message::ON_THE_WAY.to_string());
            draw(&session, settings)?;
        }
        // The key that stops a way is taken away, and does nothing else.
        session.press(command, &mut || keys.has_one());
        draw(&session, settings)?;
    }
    Ok(())
}

/// The command that the keys behind `g` make, which are shown as they are pressed.
fn number(keys: &Keys, session: &mut Session, settings: &Settings) -> io::Result<Command> {
    let mut digits = String::new();
    loop {
        session.say(message::number(&digits));
        draw(session, settings)?;
        let Some(key) = keys.next() else {
            return Ok(Command::Quit);
        };
        match key.as_str() {
            "" => return Ok(Command::of(&format!("g{digits}"))),
            "Backspace" => drop(digits.pop()),
            "Esc" => return Ok(Command::Wrong("the walk stays here".to_string())),
            "\u{3}" | "\u{4}" => return Ok(Command::Quit),
            key if digits.len() < DIGITS && key.bytes().all(|byte| byte.is_ascii_digit()) => {
                digits += key;
            }
            // The space between g and a number, and what is no digit.
            _ => {}
        }
    }
}

fn draw(session: &Session, settings: &Settings) -> io::Result<()> {
    let mut size = settings.size();
    // The line below the last one has the terminal's cursor.
    size.rows = size.rows.saturating_sub(1);
    let text = session.lines(size).join("\n");
    let mut out = io::stdout().lock();
    out.write_all(format!("{CLEAR}{text}\n").as_bytes())?;
    out.flush()
}

/// The keys of a terminal by their names.
struct Keys {
    bytes: Receiver<u8>,
}

impl Keys {
    /// Reads on a thread of its own, so that a key can stop a way of many steps.
    fn new() -> Keys {
        let (sender, bytes) = channel();
        thread::spawn(move || {
            let bytes = io::stdin().lock().bytes();
            for byte in bytes.map_while(Result::ok) {
                if sender.send(byte).is_err() {
                    break;
                }
            }
        });
        Keys { bytes }
    }

    /// Whether a key was pressed, which is then gone. Where there are no more keys it is as if one was
    /// pressed.
    fn has_one(&self) -> bool {
        use std::sync::mpsc::TryRecvError::Empty;
        match self.bytes.try_recv() {
            Err(Empty) => false,
            Ok(0x1B) => {
                self.escaped();
                true
            }
            _ => true,
        }
    }

    /// The next key, empty for Enter and for the space bar as for a line of nothing else.
    fn next(&self) -> Option<String> {
        let byte = self.bytes.recv().ok()?;
        Some(match byte {
            b'\r' | b'\n' => String::new(),
            b' ' => "space".to_string(),
            0x1B => self.escaped(),
            0x08 | 0x7F => "Backspace".to_string(),
            0x80.. => self.letter(byte),
            byte => char::from(byte).to_string(),
        })
    }

    /// The name of a key that begins with an escape.
    fn escaped(&self) -> String {
        let mut rest = String::new();
        while let Ok(byte) = self.bytes.recv_timeout(REST) {
            rest.push(char::from(byte));
            let begins = rest.len() == 1 && matches!(byte, b'[' | b'O');
            if !begins && (0x40..=0x7E).contains(&byte) || rest.len() >= LONGEST {
                break;
            }
        }
        match rest.as_str() {
            "" => "Esc",
            "[C" | "OC" => "right",
            "[D" | "OD" => "left",
            "[H" | "OH" | "[1~" | "[7~" => "home",
            "[F" | "OF" | "[4~" | "[8~" => "end",
            _ => "of this kind",
        }
        .to_string()
    }

    /// A letter of more than one byte in UTF-8.
    fn letter(&self, first: u8) -> String {
        let mut bytes = vec![first];
        for _ in 1..first.leading_ones().min(4) {
            bytes.extend(self.bytes.recv_timeout(REST));
        }
        String::from_utf8_lossy(&bytes).into_owned()
    }
}

#[cfg(test)]
mod tests {
    use super::*;

    fn names(typed: &[u8]) -> Vec<String> {
        let (sender, bytes) = channel();
        for byte in typed {
            sender.send(*byte).unwrap();
        }
        drop(sender);
        let keys = Keys { bytes };
        std::iter::from_fn(|| keys.next()).collect()
    }

    #[test]
    fn keys_have_names() {
        let arrows = b"\x1b[C\x1bOC\x1b[D\x1bOD";
        assert_eq!(names(arrows), ["right", "right", "left", "left"]);
        let ends = b"\x1b[H\x1b[1~\x1bOH\x1b[7~\x1b[F\x1b[4~\x1bOF\x1b[8~";
        let expected = ["home", "home", "home", "home", "end", "end", "end", "end"];
        assert_eq!(names(ends), expected);
        assert_eq!(
            names(b"f\r \x7f\x03"),
            ["f", "", "space", "Backspace", "\u{3}"]
        );
        assert_eq!(names("aé\u{1F600}".as_bytes()), ["a", "é", "\u{1F600}"]);
    }

    #[test]
    fn a_key_that_stops_is_gone() {
        let (sender, bytes) = channel();
        let keys = Keys { bytes };
        assert!(!keys.has_one());
        for byte in *b"x\x1b[Cf" {
            sender.send(byte).unwrap();
        }
        assert!(keys.has_one() && keys.has_one());
        assert_eq!(keys.next().as_deref(), Some("f"));
        assert!(!keys.has_one());
        // No more keys will come.
        drop(sender);
        assert!(keys.has_one());
    }

    #[test]
    fn other_sequences_are_one_key() {
        assert_eq!(names(b"\x1b[1;5Cf"), ["of this kind", "f"]);
        assert_eq!(names(b"\x1b"), ["Esc"]);
        assert_eq!(names(b"\xC3"), ["\u{fffd}"]);
    }
}
