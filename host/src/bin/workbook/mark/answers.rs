//! A file of answers, read.

use super::notation::{cut, Given};
use std::collections::BTreeMap;
use workbook_host::suggestion::closest;

/// The words that lines begin with.
const WORDS: [&str; 5] = ["answer", "local", "stack", "start", "step"];

/// What an answer may be.
const OUTCOMES: [&str; 4] = ["refused", "return", "throw", "void"];

/// All that a learner has answered.
#[derive(Debug, Default)]
pub struct Answers {
    /// By step; 0 is before the first one.
    pub steps: BTreeMap<u64, Stage>,
    /// The final answer.
    pub outcome: Option<Outcome>,
}

/// What is answered for the stage after a step. With each the line where it stands.
#[derive(Debug, Default)]
pub struct Stage {
    line: usize,
    /// Locals by number.
    pub locals: BTreeMap<usize, (usize, Given)>,
    /// The whole operand stack, the top last.
    pub stack: Option<(usize, Vec<Given>)>,
}

/// A final answer.
#[derive(Debug, PartialEq, Eq)]
pub enum Outcome {
    /// A value is returned.
    Return(Given),
    /// Nothing is returned.
    Void,
    /// An exception that nothing catches.
    Throw,
    /// A refusal with its number.
    Refused(u32),
}

/// Reads line by line.
#[derive(Default)]
struct Reader {
    answers: Answers,
    step: Option<u64>,
    answered: usize,
}

impl Answers {
    /// Reads a text.
    ///
    /// # Errors
    ///
    /// The first line that is wrong, and what is wrong in it.
    pub fn read(text: &str) -> Result<Answers, (usize, String)> {
        // Some editors put a mark before the first line.
        let text = text.strip_prefix('\u{FEFF}').unwrap_or(text);
        let mut reader = Reader::default();
        let mut last = 1;
        for (index, line) in text.lines().enumerate() {
            last = index + 1;
            let line = line.split('#').next().unwrap_or("").trim();
            if !line.is_empty() {
                reader.line(last, line).map_err(|what| (last, what))?;
            }
        }
        let Answers { steps, outcome } = &reader.answers;
        if steps.is_empty() && outcome.is_none() {
            return Err((last, "there is no answer up to here".to_string()));
        }
        let empty = |stage: &&Stage| stage.locals.is_empty() && stage.stack.is_none();
        match steps.values().filter(empty).map(|stage| stage.line).min() {
            Some(line) => Err((line, "no local and no stack stands behind this".to_string())),
            None => Ok(reader.answers),
        }
    }
}

impl Reader {
    fn line(&mut self, number: usize, line: &str) -> Result<(), String> {
        let end = line.find(|c: char| c.is_whitespace() || c == '=');
        let (word, rest) = line.split_at(end.unwrap_or(line.len()));
        let rest = rest.trim();
        match word {
            "start" if rest.is_empty() => self.step(number, 0),
            "start" => return Err("nothing stands behind start on its line".to_string()),
            "step" => {
                let step = rest.parse().ok();
                let none = || format!("step takes a number, from 0 on{}", but(rest));
                self.step(number, step.ok_or_else(none)?);
            }
            "local" => return self.local(number, rest),
            "stack" => return self.stack(number, rest),
            "answer" => return self.outcome(number, rest),
            _ => return Err(unknown("word", word, WORDS)),
        }
        Ok(())
    }

    fn step(&mut self, line: usize, step: u64) {
        let stage = Stage {
            line,
            ..Stage::default()
        };
        self.answers.steps.entry(step).or_insert(stage);
        self.step = Some(step);
    }

    /// The stage of the step that a line belongs to.
    fn stage(&mut self, word: &str) -> Result<(String, &mut Stage), String> {
        let none = || format!("{word} stands behind a line with step or start");
        let step = self.step.ok_or_else(none)?;
        let name = match step {
            0 => "the start".to_string(),
            _ => format!("step {step}"),
        };
        Ok((name, self.answers.steps.entry(step).or_default()))
    }

    fn local(&mut self, line: usize, rest: &str) -> Result<(), String> {
        let (name, stage) = self.stage("local")?;
        let none = || format!("local takes a number, = and a value{}", but(rest));
        let (local, value) = rest.split_once('=').ok_or_else(none)?;
        let local: u16 = local.trim().parse().map_err(|_| {
            let local = cut(local.trim());
            format!("{local:?} is no number of a local: 0 to 65535")
        })?;
        let given = Given::of(value.trim())?;
        match stage.locals.insert(local.into(), (line, given)) {
            None => Ok(()),
            Some((before, _)) => Err(format!(
                "local {local} of {name} is given in line {before} already"
            )),
        }
    }

    fn stack(&mut self, line: usize, rest: &str) -> Result<(), String> {
        let (name, stage) = self.stage("stack")?;
        let none = || format!("stack takes = and its values, or = empty{}", but(rest));
        let values = rest.strip_prefix('=').ok_or_else(none)?.trim();
        let values: Result<Vec<Given>, String> = match values {
            "empty" => Ok(vec![]),
            "" => Err(none()),
            _ => values
                .split(',')
                .map(|value| Given::of(value.trim()))
                .collect(),
        };
        match stage.stack.replace((line, values?)) {
            None => Ok(()),
            Some((before, _)) => Err(format!(
                "the stack of {name} is given in line {before} already"
            )),
        }
    }

    fn outcome(&mut self, line: usize, rest: &str) -> Result<(), String> {
        let (word, value) = rest.split_once(char::is_whitespace).unwrap_or((rest, ""));
        let value = value.trim();
        let outcome = match (word, value) {
            ("return", "") => {
                return Err("return takes a value; without one it is answer void".to_string());
            }
            ("return", _) => Outcome::Return(Given::of(value)?),
            ("void", "") => Outcome::Void,
            ("throw", "") => Outcome::Throw,
            ("refused", _) => {
                let number = value
                    .parse()
                    .ok()
                    .filter(|number| (1..=99).contains(number));
                let none = || format!("refused takes a number from 1 to 99{}", but(value));
                Outcome::Refused(number.ok_or_else(none)?)
            }
            ("void" | "throw", _) => return Err(format!("nothing stands behind {word}")),
            ("", _) => return Err("answer takes return, void, throw or refused".to_string()),
            _ => return Err(unknown("answer", word, OUTCOMES)),
        };
        if self.answers.outcome.replace(outcome).is_some() {
            let before = self.answered;
            return Err(format!("the answer is given in line {before} already"));
        }
        self.answered = line;
        Ok(())
    }
}

/// The end of a sentence on what is taken, where there is something else.
fn but(rest: &str) -> String {
    match rest {
        "" => String::new(),
        _ => format!(", not {:?}", cut(rest)),
    }
}

fn unknown<const N: usize>(what: &str, word: &str, names: [&str; N]) -> String {
    let shown = cut(word);
    match closest(word, names) {
        Some(name) => format!("there is no {what} {shown}; did you mean {name}?"),
        None => format!("there is no {what} {shown}: they are {}", names.join(", ")),
    }
}
