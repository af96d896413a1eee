//! What the last key gave, as a sentence.

use super::course::{is_full, Way, MOST_STEPS};
use workbook_host::shown::literal;
use workbook_host::{Answer, Refusal, Value};

/// Of the start.
pub const START: &str = "this is the start";

/// While the walk is on its way to a step or to the end.
pub const ON_THE_WAY: &str = "on the way; any key stops it";

/// The keys, as `?` shows them.
pub fn keys() -> String {
    format!(
        "\
right, space, n, f or Enter   one step forward
left or b                     one step back
Home                          to the start
End or r                      to the end, or to step {MOST_STEPS}; any key stops it
g N Enter                     to step N
?                             these keys
q, Ctrl-C or Ctrl-D           quit"
    )
}

/// While the number of a step is typed.
pub fn number(digits: &str) -> String {
    format!("go to step {digits}_ (Enter goes there, Esc stays here)")
}

/// What an answer says that is no step.
pub fn outcome(answer: Answer) -> String {
    match answer {
        Answer::Return(Value::Void) => "returned nothing".to_string(),
        Answer::Return(Value::Reference(word)) if word != 0 => "returned a reference".to_string(),
        Answer::Return(value) => format!("returned {}", literal(value)),
        Answer::Throw => "threw an ArithmeticException".to_string(),
        Answer::Refused(Refusal::START) => START.to_string(),
        answer if is_full(answer) => {
            format!("the method has not ended, and a walk goes no further than step {MOST_STEPS}")
        }
        Answer::Refused(refusal) => refusal.sentence().to_string(),
        _ => String::new(),
    }
}

/// Of a step forward over an instruction, to an offset where a handler caught what it threw.
pub fn forward(instruction: &str, handler: Option<u32>) -> String {
    match handler {
        Some(at) => format!(
            "{instruction} threw an ArithmeticException, and the handler at offset {at} caught it"
        ),
        None => format!("{instruction} was executed"),
    }
}

/// Of a step back to an instruction.
pub fn back(instruction: &str) -> String {
    format!("{instruction} was taken back")
}

/// Of a way to the end, at a step.
pub fn end(way: Way, count: u64) -> String {
    match way {
        Way::Ended(answer) => outcome(answer),
        _ => stopped(count),
    }
}

/// Of a way to a step.
pub fn go(way: Way, step: u64, count: u64) -> String {
    match way {
        Way::Reached if step == 0 => START.to_string(),
        Way::Reached => format!("this is step {step}"),
        Way::Ended(answer) if is_full(answer) => outcome(answer),
        Way::Ended(answer) => {
            let outcome = outcome(answer);
            let last = outcome.trim_end_matches('.');
            format!("there is no step {step}, because the method ends here: {last}")
        }
        Way::Stopped => stopped(count),
    }
}

fn stopped(count: u64) -> String {
    format!("stopped by a key at step {count}")
}
