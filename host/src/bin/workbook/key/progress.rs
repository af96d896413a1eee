//! How many steps are done, on standard error, where a key takes long.

use std::io::{self, IsTerminal, Write};
use std::time::{Duration, Instant};

/// How often it is said.
const EVERY: Duration = Duration::from_secs(1);

/// Says how many steps are done.
pub struct Progress {
    // None where nobody looks at it.
    next: Option<Instant>,
    said: bool,
}

impl Progress {
    /// For a key that starts now. Nothing is said where standard error is no terminal, nor where the
    /// key itself goes by on the same terminal.
    pub fn start() -> Progress {
        let seen = io::stderr().is_terminal() && !io::stdout().is_terminal();
        Progress {
            next: seen.then(|| Instant::now() + EVERY),
            said: false,
        }
    }

    /// After a step.
    pub fn tick(&mut self, steps: u64) {
        if self.next.is_some() && self.is_due(Instant::now()) {
            self.said = true;
            // A standard error that is closed is no reason to end the key.
            let _ = write!(io::stderr(), "\r{steps} steps are done");
        }
    }

    /// Whether it is to be said now, and if so not again for a second.
    fn is_due(&mut self, now: Instant) -> bool {
        let due = self.next.is_some_and(|next| now >= next);
        if due {
            self.next = Some(now + EVERY);
        }
        due
    }

    /// After the last step: the line is taken away.
    pub fn done(&self) {
        if self.said {
            let _ = write!(io::stderr(), "\r\x1B[K");
        }
    }
}

#[cfg(test)]
mod tests {
    use super::*;

    #[test]
    fn it_is_said_once_a_second() {
        let (start, after) = (Instant::now(), Duration::from_millis);
        let mut progress = Progress {
            next: Some(start + EVERY),
            said: false,
        };
        let due = [0, 999, 1_000, 1_001, 1_999, 2_000, 7_000, 7_999, 8_000]
            .map(|time| progress.is_due(start + after(time)));
        let expected = [false, false, true, false, false, true, true, false, true];
        assert_eq!(due, expected);
        progress.next = None;
        assert!(!progress.is_due(start + after(9_000)));
    }
}
