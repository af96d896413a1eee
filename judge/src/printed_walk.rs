//! The text of a walk, as docs/RULES.md, 'The printed walk', has it.

use crate::answers::Answer;
use crate::sheet::load;
use crate::step::{step, Method, State};

/// The first line.
pub const HEADER: &str = "step pc op depth top";

/// How much of a sheet `walksheet` reads, how many constants and slots it lends, how far it walks.
const MOST_BYTES: usize = 65_536;
const POOL: usize = 4_096;
const SLOTS: usize = 8_192;
const MOST_STEPS: usize = 1_600;

/// The lines of at most so many ordinary steps, and how the walk ended.
pub fn walk(
    method: &Method,
    slots: &mut [u32],
    state: &mut State,
    most: usize,
) -> (Vec<String>, Answer) {
    let mut lines = vec![];
    while lines.len() < most {
        let before = *state;
        let top = top(slots, state);
        let answer = step(method, slots, state);
        if answer != Answer::GRANTED {
            return (lines, answer);
        }
        let State { pc, depth, .. } = before;
        let opcode = method.code[pc as usize];
        lines.push(format!("{} {pc} {opcode} {depth} {top}", lines.len()));
    }
    (lines, Answer::STOPPED)
}

/// The top word, or `-` where there is none; a step from such a state is refused where it lies outside.
fn top(slots: &[u32], state: &State) -> String {
    let above = state.max_locals as usize + state.depth as usize;
    match slots.get(above.wrapping_sub(1)) {
        Some(word) if state.depth > 0 => format!("{word:08X}"),
        _ => "-".to_string(),
    }
}

/// The lines that `walksheet` prints of a sheet.
pub fn printed(sheet: &[u8]) -> Vec<String> {
    let sheet = &sheet[..sheet.len().min(MOST_BYTES)];
    let (mut kinds, mut words, mut slots) = (vec![0; POOL], vec![0; POOL], vec![0; SLOTS]);
    let loaded = match load(sheet, &mut slots, &mut kinds, &mut words) {
        Ok(loaded) => loaded,
        Err(number) => return vec![format!("sheet {number}")],
    };
    let method = Method {
        code: &sheet[loaded.code],
        kinds: &kinds,
        words: &words,
        handlers: &sheet[loaded.handlers],
    };
    let mut state = loaded.state;
    let (steps, end) = walk(&method, &mut slots, &mut state, MOST_STEPS);
    [vec![HEADER.to_string()], steps, vec![end.to_string()]].concat()
}
