//! What each call has to leave, written from include/workbook.h: the model on lent words, on a copy of
//! the memory.

use super::memory::{Function, Memory};
use judge::answers::Answer;
use judge::history;
use judge::sheet;
use judge::step::{self, Method, State};

/// Makes a call's changes, and gives its number.
pub fn call(function: Function, memory: &mut Memory) -> u32 {
    let state_reaches = memory.state.len() >= 7;
    let both_reach = state_reaches && memory.answer.len() >= 4;
    match function {
        Function::Load if !both_reach => sheet::read(memory.sheet.part()).err().unwrap_or(26),
        Function::Load => load(memory),
        Function::Step | Function::Forward | Function::Run if !both_reach => 1,
        Function::Back | Function::Presses if !state_reaches => 1,
        Function::Step => one_step(memory),
        Function::Forward => {
            let answer = press(memory, 1);
            told(memory, answer)
        }
        Function::Back => press(memory, 0).number,
        Function::Run => run(memory),
        Function::Presses => presses(memory),
    }
}

/// The state of seven words.
fn state(words: &[u32]) -> State {
    State {
        max_stack: words[0],
        max_locals: words[1],
        pc: words[2],
        depth: words[3],
        count: u64::from(words[4]) | u64::from(words[5]) << 32,
        return_type: words[6],
    }
}

/// Writes a state.
fn stand(memory: &mut Memory, state: &State) {
    let words = [
        state.max_stack,
        state.max_locals,
        state.pc,
        state.depth,
        state.count as u32,
        (state.count >> 32) as u32,
        state.return_type,
    ];
    memory.state.part_mut()[..7].copy_from_slice(&words);
}

/// Does something with the method, the slots, the log and the state of a memory, and writes the state.
fn with_parts<T>(
    memory: &mut Memory,
    does: impl FnOnce(&Method, &mut [u32], &mut [u32], &mut State) -> T,
) -> T {
    let method = Method {
        code: &memory.sheet.part()[memory.code.clone()],
        kinds: memory.kinds.part(),
        words: memory.words.part(),
        handlers: memory.handlers.part(),
    };
    let mut state = state(memory.state.part());
    let (slots, log) = (memory.slots.part_mut(), memory.log.part_mut());
    let result = does(&method, slots, log, &mut state);
    stand(memory, &state);
    result
}

/// Writes the value of a return, and gives the number.
fn told(memory: &mut Memory, answer: Answer) -> u32 {
    if (101..=106).contains(&answer.number) {
        memory.answer.part_mut()[..2].copy_from_slice(&[answer.low, answer.high]);
    }
    answer.number
}

fn one_step(memory: &mut Memory) -> u32 {
    let answer = with_parts(memory, |method, slots, _, state| {
        step::step(method, slots, state)
    });
    told(memory, answer)
}

fn press(memory: &mut Memory, byte: u8) -> Answer {
    with_parts(memory, |method, slots, log, state| {
        history::press(method, slots, log, state, byte)
    })
}

fn run(memory: &mut Memory) -> u32 {
    let budget = memory.budget;
    let (end, steps) = with_parts(memory, |method, slots, _, state| {
        step::run(method, slots, state, budget)
    });
    let words = [end.low, end.high, steps as u32, (steps >> 32) as u32];
    memory.answer.part_mut()[..4].copy_from_slice(&words);
    end.number
}

fn presses(memory: &mut Memory) -> u32 {
    if memory.answers.len() / 3 < memory.presses.len() {
        return 1;
    }
    for i in 0..memory.presses.len() {
        let answer = press(memory, memory.presses.part()[i]);
        memory.answers.part_mut()[3 * i..3 * i + 3].copy_from_slice(&answer.words());
    }
    0
}

fn load(memory: &mut Memory) -> u32 {
    let (kinds, words) = (memory.kinds.part_mut(), memory.words.part_mut());
    let slots = memory.slots.part_mut();
    match sheet::load(memory.sheet.part(), slots, kinds, words) {
        Ok(loaded) => {
            stand(memory, &loaded.state);
            let parts = [loaded.code, loaded.handlers];
            let places = parts.map(|part| [part.start as u32, part.len() as u32]);
            memory.answer.part_mut()[..4].copy_from_slice(places.as_flattened());
            0
        }
        Err(number) => number,
    }
}
