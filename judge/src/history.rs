//! Forward and back, with their log, and a list of presses.

use crate::answers::{ask, Answer};
use crate::step::{commit, decide, first_questions, Effect, Method, State};
use std::ops::Range;

/// The words of an entry of the log.
pub const ENTRY: usize = 10;

/// Where the entry at a count lies in a log that has it whole: question 11, without a sum that wraps.
pub fn entry(count: u64, log: usize) -> Option<Range<usize>> {
    let start = u128::from(count) * ENTRY as u128;
    let end = start + ENTRY as u128;
    (end <= log as u128).then_some(start as usize..end as usize)
}

/// The undo record of a step from a state.
fn undo(slots: &[u32], state: &State, effect: &Effect) -> [u32; ENTRY] {
    let many = effect.written.words().len();
    let mut words = [0; ENTRY];
    words[..4].copy_from_slice(&[state.pc, state.depth, effect.first as u32, many as u32]);
    words[4..4 + many].copy_from_slice(&slots[effect.first..][..many]);
    words
}

/// A press of forward.
pub fn forward(method: &Method, slots: &mut [u32], log: &mut [u32], state: &mut State) -> Answer {
    let effect = match decide(method, slots, state) {
        Ok(effect) => effect,
        Err(answer) => return answer,
    };
    let Some(place) = entry(state.count, log.len()) else {
        return Answer::refused(12);
    };
    log[place].copy_from_slice(&undo(slots, state, &effect));
    commit(slots, state, &effect);
    state.count += 1;
    Answer::GRANTED
}

/// The questions of back: the entry that it takes back.
fn ask_back<'a>(
    method: &Method,
    slots: &[u32],
    log: &'a [u32],
    state: &State,
) -> Result<&'a [u32], u32> {
    first_questions(method, slots, state)?;
    ask(state.count > 0, 13)?;
    let words = &log[entry(state.count - 1, log.len()).ok_or(14_u32)?];
    let [pc, depth, first, many] = [0, 1, 2, 3].map(|place| words[place] as usize);
    let stands = pc < method.code.len() && depth <= state.max_stack as usize;
    let in_frame = many == 0 || first + many <= state.frame();
    ask(stands && many <= 6 && in_frame, 14)?;
    Ok(words)
}

/// A press of back.
pub fn back(method: &Method, slots: &mut [u32], log: &[u32], state: &mut State) -> Answer {
    let words = match ask_back(method, slots, log, state) {
        Ok(words) => words,
        Err(number) => return Answer::refused(number),
    };
    let (first, many) = (words[2] as usize, words[3] as usize);
    if many > 0 {
        slots[first..first + many].copy_from_slice(&words[4..4 + many]);
    }
    (state.pc, state.depth) = (words[0], words[1]);
    state.count -= 1;
    Answer::GRANTED
}

/// A press of a list: byte 0 is back, any other byte forward.
pub fn press(
    method: &Method,
    slots: &mut [u32],
    log: &mut [u32],
    state: &mut State,
    byte: u8,
) -> Answer {
    match byte {
        0 => back(method, slots, log, state),
        _ => forward(method, slots, log, state),
    }
}
