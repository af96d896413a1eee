//! The steps of a key, one after the other. Only the stage where the walk stands is kept.

use std::ops::Range;
use workbook_host::kinds::{self, Kinds};
use workbook_host::shown::{values, Shown};
use workbook_host::{forward, mnemonics, Answer, End, State, Walk, LOG_WORDS};

/// What stands above the steps.
pub struct Head<'a> {
    /// The file as the call names it.
    pub file: &'a str,
    /// How many places the operand stack may have.
    pub max_stack: u16,
    /// How many locals there are.
    pub max_locals: u16,
    /// The method descriptor, where the sheet has one.
    pub descriptor: Option<String>,
}

impl<'a> Head<'a> {
    /// Of a loaded sheet.
    pub fn of(file: &'a str, walk: &Walk) -> Head<'a> {
        let descriptor = kinds::descriptor(walk.sheet());
        Head {
            file,
            max_stack: walk.state().max_stack,
            max_locals: walk.state().max_locals,
            descriptor: descriptor.map(|bytes| String::from_utf8_lossy(bytes).into_owned()),
        }
    }
}

/// Every local and the whole operand stack.
pub struct Stage {
    /// The locals.
    pub locals: Vec<Shown>,
    /// The operand stack, the top last.
    pub stack: Vec<Shown>,
}

/// A step, and the stage after it.
pub struct Step {
    /// Its number, from 1.
    pub number: u64,
    /// The offset of its instruction.
    pub offset: u32,
    /// The instruction.
    pub instruction: String,
    /// What stands after it.
    pub stage: Stage,
    /// What it wrote.
    pub wrote: Wrote,
}

/// What a step wrote: places counted from the first local or from the deepest place of the stack.
#[derive(Clone, Debug, PartialEq, Eq)]
pub enum Wrote {
    /// Nothing.
    Nothing,
    /// Locals.
    Locals(Range<usize>),
    /// Places of the operand stack.
    Stack(Range<usize>),
}

impl Wrote {
    /// Whether a local, or the second of two, is written.
    pub fn local(&self, local: &Shown) -> bool {
        matches!(self, Wrote::Locals(places) if meet(places, local))
    }

    /// Whether a place of the stack, or the second of two, is written.
    pub fn stack(&self, place: &Shown) -> bool {
        matches!(self, Wrote::Stack(places) if meet(places, place))
    }
}

fn meet(places: &Range<usize>, shown: &Shown) -> bool {
    places.start < shown.place + shown.places() && shown.place < places.end
}

/// Where a key ends.
pub struct Ending {
    /// How many steps were taken.
    pub steps: u64,
    /// The offset of the instruction that is not taken any more.
    pub offset: u32,
    /// That instruction.
    pub instruction: String,
    /// Why.
    pub end: End,
}

/// A walk that shows its steps.
pub struct Key<'a> {
    walk: &'a Walk,
    frame: Vec<u32>,
    // Of the last step alone: it says which places the step wrote.
    log: [u32; LOG_WORDS],
    state: State,
    kinds: Kinds,
    steps: u64,
}

impl<'a> Key<'a> {
    /// Before the first step.
    pub fn of(walk: &'a Walk) -> Key<'a> {
        Key {
            walk,
            frame: walk.frame().to_vec(),
            log: [0; LOG_WORDS],
            state: walk.state(),
            kinds: Kinds::at_start(walk.sheet()),
            steps: 0,
        }
    }

    /// How many steps were taken.
    pub fn steps(&self) -> u64 {
        self.steps
    }

    /// Where the walk stands.
    pub fn stage(&self) -> Stage {
        let (locals, stack) = self.frame.split_at(self.state.max_locals.into());
        let stack = &stack[..self.state.depth as usize];
        Stage {
            locals: values(self.kinds.locals(), locals).collect(),
            stack: values(self.kinds.stack(), stack).collect(),
        }
    }

    /// Takes a step, or says where the walk ends.
    pub fn step(&mut self) -> Result<Step, Ending> {
        let before = self.state;
        match self.press() {
            Answer::Granted => {}
            Answer::Return(value) => return Err(self.ending(before, End::Return(value))),
            Answer::Throw => return Err(self.ending(before, End::Throw)),
            Answer::Refused(refusal) => return Err(self.ending(before, End::Refused(refusal))),
            _ => return Err(self.ending(before, End::Stopped)),
        }
        let parts = self.walk.parts();
        self.kinds.step(parts, before, self.state, &self.frame);
        self.steps += 1;
        Ok(Step {
            number: self.steps,
            offset: before.pc,
            instruction: mnemonics::instruction(parts.code, before.pc),
            stage: self.stage(),
            wrote: self.wrote(),
        })
    }

    /// Where the walk ends if no further step is shown. One is tried, as what follows may be the
    /// answer.
    pub fn end(mut self) -> Ending {
        let before = self.state;
        match self.press() {
            Answer::Return(value) => self.ending(before, End::Return(value)),
            Answer::Throw => self.ending(before, End::Throw),
            Answer::Refused(refusal) => self.ending(before, End::Refused(refusal)),
            _ => self.ending(before, End::Stopped),
        }
    }

    /// One step with the log's only entry, which is free again after it.
    fn press(&mut self) -> Answer {
        let parts = self.walk.parts();
        let answer = forward(parts, &mut self.frame, &mut self.log, &mut self.state);
        self.state.count = 0;
        answer
    }

    fn wrote(&self) -> Wrote {
        let (first, places) = (self.log[2] as usize, self.log[3] as usize);
        let locals = usize::from(self.state.max_locals);
        match first.checked_sub(locals) {
            _ if places == 0 => Wrote::Nothing,
            Some(place) => Wrote::Stack(place..place + places),
            None => Wrote::Locals(first..first + places),
        }
    }

    fn ending(&self, at: State, end: End) -> Ending {
        Ending {
            steps: self.steps,
            offset: at.pc,
            instruction: mnemonics::instruction(self.walk.parts().code, at.pc),
            end,
        }
    }
}
