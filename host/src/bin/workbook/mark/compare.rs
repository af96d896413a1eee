//! Answers and the steps of a walk, side by side.

use super::answers::{Answers, Outcome, Stage as Answered};
use super::notation::{Given, Place};
use super::truth::{self, differs, ends, places, returned};
use crate::failure::Failure;
use crate::key::steps::{Ending, Key, Stage};
use workbook_host::shown::Shown;
use workbook_host::{End, Refusal, Value, Walk};

/// Compares answers with a walk of so many steps at most, and counts the places. An empty stack and
/// the final answer count as a place.
///
/// # Errors
///
/// The first answer that is wrong, or the first one that lies behind the most steps.
pub fn with_walk(walk: &Walk, answers: &Answers, most: u64) -> Result<usize, Failure> {
    let mut key = Key::of(walk);
    let (mut stage, mut compared) = (key.stage(), 0);
    for (&number, answered) in &answers.steps {
        while key.steps() < number {
            if key.steps() == most {
                return Err(behind(number, most, &key.end()));
            }
            stage = match key.step() {
                Ok(step) => step.stage,
                Err(ending) => return Err(not_reached(number, &ending)),
            };
        }
        compared += of_stage(answered, &stage).map_err(|what| at(number, &what))?;
    }
    let Some(outcome) = &answers.outcome else {
        return Ok(compared);
    };
    let ending = loop {
        if key.steps() == most {
            break key.end();
        }
        if let Err(ending) = key.step() {
            break ending;
        }
    };
    of_outcome(outcome, &ending.end, most)?;
    Ok(compared + 1)
}

/// Compares answers with a sheet that is refused before its first step.
///
/// # Errors
///
/// An answer that is another one, or a step.
pub fn with_refusal(refusal: Refusal, answers: &Answers) -> Result<usize, Failure> {
    if let Some(number) = answers.steps.keys().next() {
        let step = name(*number);
        let what = format!("{step} is not reached: the sheet is refused: {refusal}");
        return Err(Failure::Wrong(what));
    }
    if let Some(outcome) = &answers.outcome {
        of_outcome(outcome, &End::Refused(refusal), 0)?;
    }
    Ok(1)
}

fn name(step: u64) -> String {
    match step {
        0 => "start".to_string(),
        _ => format!("step {step}"),
    }
}

fn at(step: u64, what: &str) -> Failure {
    Failure::Wrong(format!("{}: {what}", name(step)))
}

fn counted(steps: u64) -> String {
    match steps {
        1 => "1 step".to_string(),
        _ => format!("{steps} steps"),
    }
}

fn not_reached(number: u64, ending: &Ending) -> Failure {
    let (ends, steps) = (ends(&ending.end), counted(ending.steps));
    Failure::Wrong(format!(
        "step {number} is not reached: the method {ends} after {steps}"
    ))
}

/// A step behind the last one that is taken.
fn behind(number: u64, most: u64, ending: &Ending) -> Failure {
    match ending.end {
        End::Stopped => Failure::Call(format!(
            "step {number} is not compared: no more than {} are taken; --steps takes more",
            counted(most)
        )),
        _ => not_reached(number, ending),
    }
}

/// Compares a stage, and counts its places.
fn of_stage(answered: &Answered, stage: &Stage) -> Result<usize, String> {
    let locals = places(&stage.locals);
    let mut compared = 0;
    for (&local, (_, given)) in &answered.locals {
        let from = locals.get(local..).unwrap_or(&[]);
        let wrong = || differs("local", &stage.locals, local, given);
        compared += given.fills(from).ok_or_else(wrong)?;
    }
    match &answered.stack {
        Some((_, given)) => Ok(compared + of_stack(given, &stage.stack)?),
        None => Ok(compared),
    }
}

/// Compares the whole operand stack.
fn of_stack(given: &[Given], stack: &[Shown]) -> Result<usize, String> {
    let all: Vec<Place> = places(stack);
    let mut place = 0;
    for one in given {
        let rest = all.get(place..).unwrap_or(&[]);
        if rest.is_empty() {
            let (has, not) = (size(place), one.text());
            return Err(format!("the stack {has}, and {not} is too many"));
        }
        let wrong = || differs("stack place", stack, place, one);
        place += one.fills(rest).ok_or_else(wrong)?;
    }
    match all.get(place) {
        Some(_) => Err(format!(
            "the stack {}, and the values given fill {place}",
            size(all.len())
        )),
        None => Ok(all.len().max(1)),
    }
}

fn size(places: usize) -> String {
    match places {
        0 => "is empty".to_string(),
        1 => "has 1 place".to_string(),
        _ => format!("has {places} places"),
    }
}

/// Compares the final answer.
fn of_outcome(outcome: &Outcome, end: &End, most: u64) -> Result<(), Failure> {
    let right = match (outcome, end) {
        (_, End::Stopped) => {
            return Err(Failure::Call(format!(
                "the answer is not compared: the method has none after {}; --steps takes more",
                counted(most)
            )))
        }
        (Outcome::Return(given), End::Return(value)) => given.is(&returned(*value)),
        (Outcome::Void, End::Return(value)) => *value == Value::Void,
        (Outcome::Throw, End::Throw) => true,
        (Outcome::Refused(number), End::Refused(refusal)) => *number == refusal.number(),
        _ => false,
    };
    if right {
        return Ok(());
    }
    let (is, not) = (truly(end, outcome), told(outcome));
    Err(Failure::Wrong(format!("the answer is {is}, not {not}")))
}

/// The answer of a method.
fn truly(end: &End, outcome: &Outcome) -> String {
    match (end, outcome) {
        (End::Return(Value::Void), _) => "void".to_string(),
        (End::Return(value), Outcome::Return(given)) => {
            let words: Vec<u32> = returned(*value).iter().map(|place| place.word).collect();
            format!("return {}", truth::value(Some(*value), &words, given))
        }
        (End::Return(value), _) => format!("return {}", workbook_host::shown::literal(*value)),
        (End::Throw, _) => "throw".to_string(),
        (End::Refused(refusal), _) => format!("refused {}", refusal.number()),
        _ => "none".to_string(),
    }
}

/// The answer that is given.
fn told(outcome: &Outcome) -> String {
    match outcome {
        Outcome::Return(given) => format!("return {}", given.text()),
        Outcome::Void => "void".to_string(),
        Outcome::Throw => "throw".to_string(),
        Outcome::Refused(number) => format!("refused {number}"),
    }
}
