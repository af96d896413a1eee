//! The questions of a step, the step without history, and the run.

use crate::answers::{ask, Answer};
use crate::decode::{decode, Decoded};
use crate::handlers::throw;
use crate::operations::{perform, Does, Few};
use crate::returns::suits;
use crate::shapes::{locals, places};

/// What a step only reads.
#[derive(Clone, Copy, Debug)]
pub struct Method<'a> {
    /// The code.
    pub code: &'a [u8],
    /// The kinds of the constant pool.
    pub kinds: &'a [u8],
    /// Its words.
    pub words: &'a [u32],
    /// The handlers.
    pub handlers: &'a [u8],
}

/// The state. Its sizes are words, as they are lent; question 1 refuses those above 16 bits.
#[derive(Clone, Copy, Debug, Default, PartialEq, Eq)]
pub struct State {
    /// Places of the operand stack.
    pub max_stack: u32,
    /// Locals.
    pub max_locals: u32,
    /// The offset of the next instruction.
    pub pc: u32,
    /// Places of the operand stack in use.
    pub depth: u32,
    /// Entries of the log.
    pub count: u64,
    /// The first character of the return type. A number that is none of these asks and narrows nothing.
    pub return_type: u32,
}

impl State {
    /// How many slots the frame has.
    pub fn frame(&self) -> usize {
        self.max_stack as usize + self.max_locals as usize
    }
}

/// An ordinary step: where it goes, and the neighbouring places that it writes.
#[derive(Clone, Copy, Debug)]
pub struct Effect {
    /// The next offset.
    pub pc: u32,
    /// The next depth.
    pub depth: u32,
    /// The first place written.
    pub first: usize,
    /// The words written there.
    pub written: Few,
}

/// Questions 1 to 3.
pub fn first_questions(method: &Method, slots: &[u32], state: &State) -> Result<(), u32> {
    let pool = method.kinds.len() == method.words.len() && method.kinds.len() <= 65_536;
    let sizes = state.max_stack <= 65_535 && state.max_locals <= 65_535;
    ask(pool && sizes && slots.len() >= state.frame(), 1)?;
    let length = method.code.len();
    let inside = (state.pc as usize) < length;
    ask((1..=65_535).contains(&length) && inside, 2)?;
    ask(state.depth <= state.max_stack, 3)
}

/// Question 9: a constant of the right kind at the index, and an entry after that of a long.
pub fn has_constant(kinds: &[u8], opcode: u8, index: usize) -> bool {
    let kind = kinds.get(index);
    match opcode {
        20 => matches!(kind, Some(5 | 6)) && index + 1 < kinds.len(),
        _ => matches!(kind, Some(3 | 4)),
    }
}

/// Questions 6 to 9 and that of a return's kind: the depth under what the instruction pops.
fn ask_about(decoded: &Decoded, kinds: &[u8], state: &State) -> Result<usize, u32> {
    let (pops, pushes) = places(decoded.opcode).expect("a core opcode");
    let depth = state.depth as usize;
    ask(depth >= pops, 7)?;
    ask(depth - pops + pushes <= state.max_stack as usize, 8)?;
    let many = locals(decoded.opcode);
    let there = decoded.index + many <= state.max_locals as usize;
    ask(many == 0 || there, 9)?;
    let pooled = matches!(decoded.opcode, 18..=20);
    let found = !pooled || has_constant(kinds, decoded.opcode, decoded.index);
    ask(found, 10)?;
    ask(suits(decoded.opcode, state.return_type), 32)?;
    Ok(depth - pops)
}

/// What the step at a state comes to: an ordinary step, or the answer that ends it. Question 11
/// belongs to whoever has a log.
pub fn decide(method: &Method, slots: &[u32], state: &State) -> Result<Effect, Answer> {
    first_questions(method, slots, state).map_err(Answer::refused)?;
    let decoded = decode(method.code, state.pc as usize).map_err(Answer::refused)?;
    let left = ask_about(&decoded, method.kinds, state).map_err(Answer::refused)?;
    let base = state.max_locals as usize + left;
    let popped = &slots[base..state.max_locals as usize + state.depth as usize];
    let does = perform(method, &decoded, slots, popped);
    let distance = match does {
        Does::End(answer) => return Err(answer.of_type(state.return_type)),
        Does::Throw => return throw(method, state, state.pc as usize),
        Does::Jump(distance) => distance.into(),
        _ => decoded.length as i64,
    };
    let pc = i64::from(state.pc) + distance;
    let inside = (0..method.code.len() as i64).contains(&pc);
    ask(inside, 11).map_err(Answer::refused)?;
    let (first, written, pushed) = match does {
        Does::Push(few) if !few.words().is_empty() => (base, few, few.words().len()),
        Does::Store(few) => (decoded.index, few, 0),
        _ => (0, Few::of(&[]), 0),
    };
    Ok(Effect {
        pc: pc as u32,
        depth: (left + pushed) as u32,
        first,
        written,
    })
}

/// Writes what an ordinary step writes. The count is another's.
pub fn commit(slots: &mut [u32], state: &mut State, effect: &Effect) {
    let words = effect.written.words();
    slots[effect.first..][..words.len()].copy_from_slice(words);
    (state.pc, state.depth) = (effect.pc, effect.depth);
}

/// A step without history.
pub fn step(method: &Method, slots: &mut [u32], state: &mut State) -> Answer {
    match decide(method, slots, state) {
        Ok(effect) => {
            commit(slots, state, &effect);
            state.count = 0;
            Answer::GRANTED
        }
        Err(answer) => answer,
    }
}

/// A run: how it ends, and the steps that it took.
pub fn run(method: &Method, slots: &mut [u32], state: &mut State, budget: u64) -> (Answer, u64) {
    if let Err(number) = first_questions(method, slots, state) {
        return (Answer::refused(number), 0);
    }
    state.count = 0;
    for steps in 0..budget {
        let answer = step(method, slots, state);
        if answer != Answer::GRANTED {
            return (answer, steps);
        }
    }
    (Answer::STOPPED, budget)
}
