//! `workbook walk`, by raw keys in a terminal.
#![forbid(unsafe_code)]

mod common;

use common::folder::program;
use common::sample_path;
use std::io::{Read, Write};
use std::process::{Child, ChildStdin, Command, Stdio};
use std::sync::mpsc::{channel, Receiver};
use std::thread;
use std::time::Duration;

/// A session on a pseudo-terminal, which the program `script` makes.
struct Terminal {
    child: Child,
    keys: ChildStdin,
    printed: Receiver<Vec<u8>>,
    text: String,
}

impl Terminal {
    /// Walks a sample between two lines with the terminal's settings. Nothing, and a word about it,
    /// where there is no such `script`.
    fn walk(sample: &str) -> Option<Terminal> {
        let version = Command::new("script").arg("--version").output();
        if !version.is_ok_and(|output| output.stdout.windows(10).any(|part| part == b"util-linux"))
        {
            eprintln!("skipped: there is no script of util-linux");
            return None;
        }
        let session = "stty rows 12 cols 44; stty -g; \"$PROGRAM\" walk \"$SAMPLE\"; \
                       echo status $?; stty -g";
        let mut child = Command::new("script")
            .args(["-qec", session, "/dev/null"])
            .env("PROGRAM", program())
            .env("SAMPLE", sample_path(sample))
            .env("SHELL", "/bin/sh")
            .stdin(Stdio::piped())
            .stdout(Stdio::piped())
            .spawn()
            .unwrap();
        let (sender, printed) = channel();
        let (keys, mut out) = (child.stdin.take().unwrap(), child.stdout.take().unwrap());
        thread::spawn(move || {
            let mut bytes = [0; 4096];
            while let Ok(read @ 1..) = out.read(&mut bytes) {
                let _ = sender.send(bytes[..read].to_vec());
            }
        });
        Some(Terminal {
            child,
            keys,
            printed,
            text: String::new(),
        })
    }

    /// Types keys, and waits until a text is printed behind all that was waited for before.
    #[track_caller]
    fn types(&mut self, keys: &str, awaited: &str) -> String {
        self.keys.write_all(keys.as_bytes()).unwrap();
        self.keys.flush().unwrap();
        loop {
            if let Some((before, after)) = self.text.split_once(awaited) {
                let before = before.to_string();
                self.text = after.to_string();
                return before;
            }
            match self.printed.recv_timeout(Duration::from_secs(30)) {
                Ok(bytes) => self.text += &String::from_utf8_lossy(&bytes),
                Err(_) => {
                    let _ = self.child.kill();
                    panic!("{awaited} is not printed, but {:?}", self.text);
                }
            }
        }
    }

    /// Types the keys that end a session, and compares the terminal's settings.
    #[track_caller]
    fn ends(mut self, before: &str, keys: &str) {
        self.types(keys, "status 0\r\n");
        let after = self.types("", "\r\n");
        assert!(before.contains(':'), "{before:?}");
        assert_eq!(after, before);
        drop(self.keys);
        assert!(self.child.wait().unwrap().success());
    }
}

const FIRST: &str = "this is the start; ? shows the keys";

#[test]
fn raw_keys_in_a_terminal() {
    let Some(mut terminal) = Terminal::walk("printed.sheet") else {
        return;
    };
    let settings = terminal.types("", "\r\n");
    let screen = terminal.types("", FIRST);
    assert!(screen.starts_with("\x1b[H\x1b[2Jstep 0\r\n"), "{screen:?}");
    terminal.types("\x1b[C", "iconst_3 was executed");
    terminal.types(" ", "iconst_4 was executed");
    terminal.types("\x1b[D", "iconst_4 was taken back");
    terminal.types("\x1b[F", "returned 7");
    terminal.types("\x1b[H", "this is the start\r\n");
    terminal.types("g", "go to step _");
    terminal.types("93\x7f\x7f2", "go to step 2_");
    terminal.types("\r", "this is step 2");
    terminal.types("g1\x1b", "the walk stays here");
    terminal.types("\x1b[5~", "there is no key of this kind;");
    terminal.types("?", "q, Ctrl-C or Ctrl-D           quit");
    terminal.ends(&settings, "q");
}

#[test]
fn other_keys_end_and_any_key_stops() {
    for (quit, sample) in [("\x03", "loop.sheet"), ("g\x04", "lookupswitch.sheet")] {
        let Some(mut terminal) = Terminal::walk(sample) else {
            return;
        };
        let settings = terminal.types("", "\r\n");
        let screen = terminal.types("", FIRST);
        // There are 12 rows, and the last one stays free.
        assert!(screen.matches("\r\n").count() < 12, "{screen:?}");
        assert!(screen.contains("\r\n>      0: "), "{screen:?}");
        terminal.ends(&settings, quit);
    }
    let Some(mut terminal) = Terminal::walk("endless.sheet") else {
        return;
    };
    let settings = terminal.types("", "\r\n");
    terminal.types("", FIRST);
    terminal.types("rq", "stopped by a key at step ");
    terminal.ends(&settings, "q");
}
