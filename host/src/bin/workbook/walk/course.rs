//! Where a walk stands, with its history and the kinds of its words.

use std::collections::VecDeque;
use std::ops::Range;
use workbook_host::kinds::Kinds;
use workbook_host::shown::{values, Shown};
use workbook_host::{back, forward, step, Answer, Refusal, ReturnType, State, Walk, LOG_WORDS};

/// How many steps a walk has at most. Each takes 40 bytes, so a method that does not end does not
/// fill the memory.
pub const MOST_STEPS: u64 = 1_000_000;

/// How many entries the log has after its first step.
const FIRST_ENTRIES: usize = 64;

/// How many bytes the kinds of earlier steps take at most, where a frame is large.
const KEPT_BYTES: usize = 4 << 20;

/// How many earlier steps have their kinds kept at most.
const MOST_KEPT: usize = 1_000;

/// How many steps are taken between two looks at the keys.
const STEPS_A_LOOK: u64 = 4_096;

/// How a way of many steps ended.
#[derive(Clone, Copy, Debug, PartialEq, Eq)]
pub enum Way {
    /// At the step that was asked for.
    Reached,
    /// Before it, at an answer that is no step.
    Ended(Answer),
    /// Before it, because it was stopped.
    Stopped,
}

/// A walk at one of its steps.
pub struct Course {
    // It stays at the start, and everything can be walked again from it.
    start: Walk,
    frame: Vec<u32>,
    log: Vec<[u32; LOG_WORDS]>,
    state: State,
    kinds: Kinds,
    // Of the steps right before this one, the nearest last. Fewer than those that were taken.
    kept: VecDeque<Kinds>,
    most_kept: usize,
}

impl Course {
    /// At the start of a walk that has taken no step.
    pub fn new(start: Walk) -> Course {
        let most_kept = KEPT_BYTES / start.frame().len().max(1);
        Course {
            frame: start.frame().to_vec(),
            log: vec![],
            state: start.state(),
            kinds: Kinds::at_start(start.sheet()),
            kept: VecDeque::new(),
            most_kept: most_kept.clamp(1, MOST_KEPT),
            start,
        }
    }

    /// How many steps it is from the start.
    pub fn count(&self) -> u64 {
        self.state.count
    }

    /// The offset of the next instruction.
    pub fn pc(&self) -> u32 {
        self.state.pc
    }

    /// The whole sheet.
    pub fn sheet(&self) -> &[u8] {
        self.start.sheet()
    }

    /// What the method returns.
    pub fn return_type(&self) -> ReturnType {
        self.start.return_type()
    }

    /// The code.
    pub fn code(&self) -> &[u8] {
        self.start.parts().code
    }

    /// The locals with their values.
    pub fn locals(&self) -> Vec<Shown> {
        values(self.kinds.locals(), &self.frame[..self.max_locals()]).collect()
    }

    /// The operand stack with its values, the top last.
    pub fn stack(&self) -> Vec<Shown> {
        values(self.kinds.stack(), self.stack_words()).collect()
    }

    /// The locals that the last step wrote.
    pub fn written_locals(&self) -> Range<usize> {
        let written = self.written();
        let end = written.end.min(self.max_locals());
        written.start.min(end)..end
    }

    /// The places of the operand stack that the last step wrote.
    pub fn written_stack(&self) -> Range<usize> {
        let (written, locals) = (self.written(), self.max_locals());
        written.start.saturating_sub(locals)..written.end.saturating_sub(locals)
    }

    /// Whether the next instruction divides by zero, so that it throws.
    pub fn divides_by_zero(&self) -> bool {
        let words = match self.code().get(self.state.pc as usize) {
            // IDIV and IREM, then LDIV and LREM.
            Some(0x6C | 0x70) => 1,
            Some(0x6D | 0x71) => 2,
            _ => return false,
        };
        let stack = self.stack_words();
        let divisor = stack.len().checked_sub(words).map(|from| &stack[from..]);
        divisor.is_some_and(|words| words.iter().all(|word| *word == 0))
    }

    /// One step further. At the last step that a walk can have, the log is full.
    pub fn forward(&mut self) -> Answer {
        let kinds = self.kinds.clone();
        let answer = self.press();
        if answer == Answer::Granted {
            self.keep(kinds);
        }
        answer
    }

    /// The last step taken back.
    pub fn back(&mut self) -> Answer {
        let (parts, log) = (self.start.parts(), self.log.as_flattened());
        let answer = back(parts, &mut self.frame, log, &mut self.state);
        if answer == Answer::Granted {
            match self.kept.pop_back() {
                Some(kinds) => self.kinds = kinds,
                None => self.kinds_again(),
            }
        }
        answer
    }

    /// Goes to the start.
    pub fn restart(&mut self) {
        self.frame.copy_from_slice(self.start.frame());
        self.state = self.start.state();
        self.kinds = Kinds::at_start(self.start.sheet());
        self.kept.clear();
    }

    /// Goes to a step, as far as there is one. What stops it is asked now and then.
    pub fn go(&mut self, step: u64, stopped: &mut dyn FnMut() -> bool) -> Way {
        if step < self.count() {
            self.restart();
        }
        // The kinds of each step would cost more time than the steps.
        self.kept.clear();
        while self.count() < step {
            match self.press() {
                Answer::Granted => {}
                answer => return Way::Ended(answer),
            }
            if self.count() % STEPS_A_LOOK == 0 && stopped() {
                return Way::Stopped;
            }
        }
        Way::Reached
    }

    /// One step, with room in the log where more of it is allowed.
    fn press(&mut self) -> Answer {
        let before = self.state;
        if before.count == self.log.len() as u64 {
            let entries = (2 * self.log.len()).max(FIRST_ENTRIES);
            self.log
                .resize(entries.min(MOST_STEPS as usize), [0; LOG_WORDS]);
        }
        let (parts, log) = (self.start.parts(), self.log.as_flattened_mut());
        let answer = forward(parts, &mut self.frame, log, &mut self.state);
        if answer == Answer::Granted {
            self.kinds.step(parts, before, self.state, &self.frame);
        }
        answer
    }

    fn keep(&mut self, kinds: Kinds) {
        if self.kept.len() == self.most_kept {
            self.kept.pop_front();
        }
        self.kept.push_back(kinds);
    }

    /// The kinds here and of the steps right before, walked again from the start.
    fn kinds_again(&mut self) {
        let (mut state, mut frame) = (self.start.state(), self.start.frame().to_vec());
        self.kinds = Kinds::at_start(self.start.sheet());
        let count = self.state.count;
        let keep_from = count.saturating_sub(self.most_kept as u64);
        for number in 0..count {
            if number >= keep_from {
                self.keep(self.kinds.clone());
            }
            let before = state;
            let answer = step(self.start.parts(), &mut frame, &mut state);
            debug_assert_eq!(answer, Answer::Granted);
            self.kinds.step(self.start.parts(), before, state, &frame);
        }
    }

    fn max_locals(&self) -> usize {
        self.state.max_locals.into()
    }

    fn stack_words(&self) -> &[u32] {
        &self.frame[self.max_locals()..][..self.state.depth as usize]
    }

    /// The words of the frame that the last step wrote.
    fn written(&self) -> Range<usize> {
        let last = self.state.count.checked_sub(1);
        let entry = last.and_then(|last| self.log.get(last as usize));
        entry.map_or(0..0, |entry| {
            let (first, places) = (entry[2] as usize, entry[3] as usize);
            first..first + places
        })
    }
}

/// Whether an answer says that a walk has all the steps that it can have.
pub fn is_full(answer: Answer) -> bool {
    answer == Answer::Refused(Refusal::LOG_FULL)
}

#[cfg(test)]
mod tests;
