//! `mark`: a learner's answers against the steps of a method.
//!
//! Answers are lines of text. `#` begins a comment, and the order of the steps is free.
//!
//! ```text
//! start                   # what follows stands before the first step
//! local 0 = 4
//! step 7                  # what follows stands after step 7
//! local 1 = 3
//! stack = 4, 0.1f         # the whole operand stack, the top last
//! step 8
//! stack = empty
//! answer return 5         # or: answer void, answer throw, answer refused 7
//! ```
//!
//! A value is right where its bits are, in any notation: `-1`, `4294967295`, `0xFFFFFFFF`, `FFFFFFFF`,
//! `0.1f`, `NaN`, `null`; a long or a double fills two places. The kind that a place has decides only
//! how a number without a letter is read. Up to eight hexadecimal digits are one word; sixteen, or
//! more than eight after `0x`, are two.

mod answers;
mod compare;
mod notation;
mod truth;

use crate::failure::Failure;
use crate::input::{self, Input};
use crate::method::sheet;
use crate::output::print;
use answers::Answers;
use workbook_host::Walk;

const USAGE: &str =
    "usage: workbook mark FILE [METHOD[DESCRIPTOR] ARGUMENT ...] ANSWERS [--steps N]";

/// What the answers are like, for `--help`.
const FORMAT: &str = "
Says whether a learner's answers are right for a source or a sheet, or which place is wrong first.
The file of answers has these lines, and comments after a #:

    start                  what follows stands before the first step
    step N                 what follows stands after step N; steps come in any order
    local N = VALUE        a local
    stack = VALUE, ...     the whole operand stack, the top last; or: stack = empty
    answer return VALUE    the answer; or: answer void, answer throw, answer refused N

A value is decimal (-1, 4294967295), hexadecimal (0x1F, 0000001F), a float (0.1f, NaN), null, or a
long (5L) or a double (0.1) over two places. No more than N steps are taken, a million without
--steps.
";

/// How many steps are taken where a call does not say it, as for a key.
const STEPS: u64 = 1_000_000;

/// Compares a file of answers with the steps of a method.
///
/// # Errors
///
/// A wrong call or file, or the first answer that is wrong.
pub fn run(words: &[String]) -> Result<(), Failure> {
    if words == ["--help"] {
        return print(&format!("{USAGE}\n{FORMAT}"));
    }
    let (names, steps) = call(words)?;
    let [file, method @ .., answers] = &names[..] else {
        return Err(wrong("mark takes a file and a file of answers"));
    };
    let bytes = sheet(file, method)?;
    let answers = match input::read(answers)? {
        Input::Source(text) => Answers::read(&text)
            .map_err(|(line, what)| Failure::of_file(&format!("{answers}:{line}"), what))?,
        Input::Sheet(_) => return Err(Failure::of_file(answers, "is a sheet, not answers")),
        Input::Class(_) => return Err(Failure::of_file(answers, "is a class file, not answers")),
    };
    let compared = match Walk::open_with_log(bytes, 0) {
        Ok(walk) => compare::with_walk(&walk, &answers, steps)?,
        Err(refusal) => compare::with_refusal(refusal, &answers)?,
    };
    print(&match compared {
        1 => "all right: 1 place was compared\n".to_string(),
        _ => format!("all right: {compared} places were compared\n"),
    })
}

/// The words of a call that are no option, and the most steps.
fn call(words: &[String]) -> Result<(Vec<&str>, u64), Failure> {
    let (mut names, mut steps) = (vec![], None);
    let mut words = words.iter().map(String::as_str);
    while let Some(word) = words.next() {
        match word {
            "--steps" if steps.is_some() => return Err(wrong("--steps is given twice")),
            "--steps" => steps = Some(number(words.next())?),
            _ if word.starts_with("--") => {
                return Err(wrong(&format!("mark has no option {word}")));
            }
            _ => names.push(word),
        }
    }
    match names[..] {
        ["-", .., "-"] => Err(wrong("only one file is standard input")),
        _ => Ok((names, steps.unwrap_or(STEPS))),
    }
}

fn number(word: Option<&str>) -> Result<u64, Failure> {
    word.and_then(|word| word.parse().ok())
        .ok_or_else(|| wrong("--steps takes a number, from 0 on"))
}

fn wrong(what: &str) -> Failure {
    Failure::Call(format!(
        "{what}; {USAGE}, and workbook mark --help says more"
    ))
}
