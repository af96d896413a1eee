//! What crates/step_traces must print: what the steps and runs of the sample methods give, refused
//! ones included.
//!
//! A trace is these lines; words and code are in upper-case hexadecimal, other numbers are decimal, and an
//! empty list is -:
//!
//! ```text
//! method NAME
//! code BYTES
//! kinds NUMBERS                 the constants' kinds
//! words WORDS                   the constants' words
//! handlers BYTES                the lent handlers
//! slots WORDS                   the lent slots before: the locals, the stack, and slots past the frame
//! state SIX NUMBERS             before: max_stack, max_locals, pc, depth, count and the return type
//! step pc op depth top          then a line for each ordinary step without history, as in a printed walk
//! END                           how the walk ended: return and its value, throw arithmetic, refused N, or stopped, after 60 steps
//! slots WORDS                   after the walk
//! state SIX NUMBERS
//! run 60 STEPS END              a run with budget 60 from the start on fresh slots, the steps that it took, how it ended
//! slots WORDS                   after that run
//! state SIX NUMBERS
//! run HALF STEPS END            the same with half of the walk's steps, rounded down, as budget
//! slots WORDS
//! state SIX NUMBERS
//! (an empty line)
//! ```

use super::methods::Sample;
use super::text::{joined, listed};
use crate::printed_walk::{walk, HEADER};
use crate::step::{run, State};

const BUDGET: usize = 60;

/// The file of traces. A walk that does not end as its sample says is an error.
pub fn stdout(samples: &[Sample]) -> Result<Vec<u8>, String> {
    let traces = samples.iter().map(trace).collect::<Result<Vec<_>, _>>()?;
    Ok(joined(traces.concat()))
}

/// The lines of the slots and of the state.
pub fn shown(slots: &[u32], state: &State) -> [String; 2] {
    let State {
        max_stack,
        max_locals,
        pc,
        depth,
        count,
        return_type,
    } = state;
    let slots = listed("slots", slots, |word| format!("{word:08X}"));
    [
        slots,
        format!("state {max_stack} {max_locals} {pc} {depth} {count} {return_type}"),
    ]
}

fn trace(sample: &Sample) -> Result<Vec<String>, String> {
    let (mut slots, mut state) = (sample.slots.clone(), sample.state);
    let (steps, end) = walk(&sample.method(), &mut slots, &mut state, BUDGET);
    if end.to_string() != sample.end {
        return Err(format!("{} ends with {end}", sample.name));
    }
    let stack = slots.get(state.max_locals as usize..).unwrap_or_default();
    if sample
        .leaves
        .as_ref()
        .is_some_and(|leaves| !stack.starts_with(leaves) || leaves.len() != state.depth as usize)
    {
        return Err(format!("{} leaves {stack:X?}", sample.name));
    }
    let mut lines = vec![
        format!("method {}", sample.name),
        listed("code", &sample.code, |byte| format!("{byte:02X}")),
        listed("kinds", &sample.kinds, u8::to_string),
        listed("words", &sample.words, |word| format!("{word:08X}")),
        listed("handlers", &sample.handlers, |byte| format!("{byte:02X}")),
    ];
    lines.extend(shown(&sample.slots, &sample.state));
    lines.push(HEADER.to_string());
    let half = steps.len() / 2;
    lines.extend(steps);
    lines.push(end.to_string());
    lines.extend(shown(&slots, &state));
    lines.extend(run_lines(sample, BUDGET));
    lines.extend(run_lines(sample, half));
    lines.push(String::new());
    Ok(lines)
}

/// The lines of a run from the sample's start.
fn run_lines(sample: &Sample, budget: usize) -> Vec<String> {
    let (mut slots, mut state) = (sample.slots.clone(), sample.state);
    let (end, steps) = run(&sample.method(), &mut slots, &mut state, budget as u64);
    let [slots, state] = shown(&slots, &state);
    vec![format!("run {budget} {steps} {end}"), slots, state]
}
