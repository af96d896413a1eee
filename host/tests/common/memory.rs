//! What a call is lent, with guards around each part, and the six calls.

use std::fmt::UpperHex;
use std::ops::Range;
use workbook_host::ffi;

/// Guard elements on each side of a lent part, at least.
pub const GUARD: usize = 16;

/// A part to lend. Two of them are equal where their parts and their guards are equal, so that one
/// comparison with a copy made before a call shows whether anything was written.
#[derive(Clone, PartialEq)]
pub struct Lent<T> {
    all: Vec<T>,
    start: usize,
    end: usize,
}

impl<T: Copy + PartialEq + UpperHex> Lent<T> {
    /// A part between guards.
    pub fn between(before: &[T], part: &[T], after: &[T]) -> Lent<T> {
        Lent {
            all: [before, part, after].concat(),
            start: before.len(),
            end: before.len() + part.len(),
        }
    }

    pub fn part(&self) -> &[T] {
        &self.all[self.start..self.end]
    }

    pub fn part_mut(&mut self) -> &mut [T] {
        &mut self.all[self.start..self.end]
    }

    pub fn len(&self) -> usize {
        self.end - self.start
    }

    /// The guards before and after the part.
    pub fn guards(&self) -> [&[T]; 2] {
        [&self.all[..self.start], &self.all[self.end..]]
    }

    /// The same guards around another part.
    pub fn with(&self, part: &[T]) -> Lent<T> {
        let [before, after] = self.guards();
        Lent::between(before, part, after)
    }

    /// Says at which place two parts differ first. Places before the part count from below 0.
    fn difference(&self, name: &str, expected: &Lent<T>) -> Option<String> {
        let length = self.len();
        if (self.all.len(), length) != (expected.all.len(), expected.len()) {
            let should = expected.len();
            return Some(format!("{name} is of {length}, and should be of {should}"));
        }
        let place = (0..self.all.len()).find(|&i| self.all[i] != expected.all[i])?;
        let (is, was) = (self.all[place], expected.all[place]);
        let place = place as isize - self.start as isize;
        Some(format!(
            "{name}[{place}] of {length} is {is:X}, and should be {was:X}"
        ))
    }
}

/// All that a call may be lent.
#[derive(Clone, PartialEq)]
pub struct Memory {
    /// A sheet, or bytes around a code that no load has seen.
    pub sheet: Lent<u8>,
    /// Where the code lies in it.
    pub code: Range<usize>,
    pub kinds: Lent<u8>,
    pub words: Lent<u32>,
    /// The handlers, of their own, so that they have guards too.
    pub handlers: Lent<u8>,
    pub slots: Lent<u32>,
    pub log: Lent<u32>,
    pub state: Lent<u32>,
    pub answer: Lent<u32>,
    pub presses: Lent<u8>,
    pub answers: Lent<u32>,
    pub budget: u64,
}

impl Memory {
    pub fn code(&self) -> &[u8] {
        &self.sheet.part()[self.code.clone()]
    }

    /// Takes for the code and the handlers what an accepted load has answered.
    pub fn take_parts(&mut self) {
        let answer = self.answer.part();
        let part = |word: usize| {
            let (start, length) = (answer[word] as usize, answer[word + 1] as usize);
            start..start + length
        };
        let (code, handlers) = (part(0), part(2));
        self.handlers = self.handlers.with(&self.sheet.part()[handlers]);
        self.code = code;
    }

    /// The first place, in a part or in a guard, where this memory is not what it should be.
    pub fn difference(&self, expected: &Memory) -> Option<String> {
        self.sheet
            .difference("sheet", &expected.sheet)
            .or_else(|| self.kinds.difference("kinds", &expected.kinds))
            .or_else(|| self.words.difference("words", &expected.words))
            .or_else(|| self.handlers.difference("handlers", &expected.handlers))
            .or_else(|| self.slots.difference("slots", &expected.slots))
            .or_else(|| self.log.difference("log", &expected.log))
            .or_else(|| self.state.difference("state", &expected.state))
            .or_else(|| self.answer.difference("answer", &expected.answer))
            .or_else(|| self.presses.difference("presses", &expected.presses))
            .or_else(|| self.answers.difference("answers", &expected.answers))
    }
}

/// The exported functions.
#[derive(Clone, Copy, Debug, PartialEq, Eq)]
pub enum Function {
    Load,
    Step,
    Forward,
    Back,
    Run,
    Presses,
}

impl Function {
    pub const ALL: [Function; 6] = [
        Function::Load,
        Function::Step,
        Function::Forward,
        Function::Back,
        Function::Run,
        Function::Presses,
    ];

    /// Calls the library.
    pub fn call(self, memory: &mut Memory) -> u32 {
        let sheet = memory.sheet.part();
        let code = &sheet[memory.code.clone()];
        let (kinds, words) = (memory.kinds.part_mut(), memory.words.part_mut());
        let handlers = memory.handlers.part();
        let (slots, log) = (memory.slots.part_mut(), memory.log.part_mut());
        let (state, answer) = (memory.state.part_mut(), memory.answer.part_mut());
        let (presses, answers) = (memory.presses.part(), memory.answers.part_mut());
        let budget = memory.budget;
        match self {
            Function::Load => ffi::load(sheet, slots, kinds, words, state, answer),
            Function::Step => ffi::step(code, kinds, words, handlers, slots, state, answer),
            Function::Forward => {
                ffi::forward(code, kinds, words, handlers, slots, log, state, answer)
            }
            Function::Back => ffi::back(code, kinds, words, slots, log, state),
            Function::Run => ffi::run(code, kinds, words, handlers, slots, state, answer, budget),
            Function::Presses => ffi::presses(
                code, kinds, words, handlers, slots, log, state, presses, answers,
            ),
        }
    }
}
