//! `key`: the answer key of a method, step by step.

mod call;
pub mod format;
mod html;
mod json;
mod markdown;
mod progress;
pub mod steps;
mod text;

use crate::failure::{said, Failure};
use crate::method::sheet;
use call::Call;
use progress::Progress;
use std::io::{self, BufWriter, Write};
use steps::{Head, Key};
use workbook_host::Walk;

/// How many bytes are gathered before they are written.
const GATHERED: usize = 1 << 16;

/// Writes the answer key of a file on standard output.
///
/// # Errors
///
/// A wrong call or file, a refused sheet, or an output that cannot be written. One that is closed
/// ends the key without an error, as `head` closes it.
pub fn run(words: &[String]) -> Result<(), Failure> {
    let call = Call::of(words)?;
    let walk = Walk::open_with_log(sheet(call.file, &call.method)?, 0)
        .map_err(|refusal| Failure::of_sheet(call.file, &refusal))?;
    let mut out = BufWriter::with_capacity(GATHERED, io::stdout().lock());
    let written = write(&walk, &call, &mut out).and_then(|()| out.flush());
    match written {
        Err(error) if error.kind() != io::ErrorKind::BrokenPipe => {
            Err(Failure::of_file("standard output", said(&error)))
        }
        _ => Ok(()),
    }
}

/// The key as it is walked: nothing of it is kept.
fn write(walk: &Walk, call: &Call, out: &mut dyn Write) -> io::Result<()> {
    let mut format = call.format.writer();
    let (mut key, mut progress) = (Key::of(walk), Progress::start());
    format.head(out, &Head::of(call.file, walk), &key.stage())?;
    let end = loop {
        if key.steps() == call.steps {
            break key.end();
        }
        match key.step() {
            Ok(step) => format.step(out, &step)?,
            Err(end) => break end,
        }
        progress.tick(key.steps());
    };
    progress.done();
    format.end(out, &end)
}
