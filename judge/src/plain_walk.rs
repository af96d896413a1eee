//! The plain walk of docs/RULES.md: stages without history, and net. It has no log to go back by.

use crate::answers::Answer;
use crate::history::entry;
use crate::step::{step, Method, State};

/// A stage: the state, of which only offset and depth count, and the slots.
type Stage = (State, Vec<u32>);

/// A plain walk on a method, with a log of so many words.
#[derive(Clone, Debug)]
pub struct PlainWalk<'a> {
    method: Method<'a>,
    stages: Vec<Stage>,
    net: usize,
    log: usize,
}

impl PlainWalk<'_> {
    /// A walk from what a load has left.
    pub fn new<'a>(method: Method<'a>, slots: &[u32], state: State, log: usize) -> PlainWalk<'a> {
        PlainWalk {
            method,
            stages: vec![(state, slots.to_vec())],
            net: 0,
            log,
        }
    }

    /// A press: byte 0 is back, any other byte forward.
    pub fn press(&mut self, byte: u8) -> Answer {
        match byte {
            0 => self.back(),
            _ => self.forward(),
        }
    }

    fn forward(&mut self) -> Answer {
        if self.net + 1 == self.stages.len() {
            let (mut state, mut slots) = self.stages[self.net].clone();
            let answer = step(&self.method, &mut slots, &mut state);
            if answer != Answer::GRANTED {
                return answer;
            }
            self.stages.push((state, slots));
        }
        if entry(self.net as u64, self.log).is_none() {
            return Answer::refused(12);
        }
        self.net += 1;
        Answer::GRANTED
    }

    fn back(&mut self) -> Answer {
        if self.net == 0 {
            return Answer::refused(13);
        }
        self.net -= 1;
        Answer::GRANTED
    }

    /// Stage net, with net as its count.
    pub fn reached(&self) -> (State, &[u32]) {
        let (state, slots) = &self.stages[self.net];
        let count = self.net as u64;
        (State { count, ..*state }, slots)
    }
}
