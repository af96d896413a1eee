//! What several test programs use.
#![forbid(unsafe_code)]
// Each test program has its own copy and uses a part of it.
#![allow(dead_code)]

pub mod folder;
pub mod java;
pub mod known;
pub mod marks;
// The judge's fuzz program has these two too.
pub mod memory;
pub mod random;

use memory::{Function, Lent, Memory, GUARD};
use std::fmt::{Display, UpperHex};
use std::fs;
use std::path::{Path, PathBuf};
use workbook_host::records::{arguments, constant, record, sizes};
use workbook_host::{Answer, Parts, Press, Ran, Refusal, State};

/// A sample: its sheet, and what `walksheet` prints of it.
pub struct Sample {
    pub name: String,
    pub sheet: Vec<u8>,
    pub printed: String,
}

pub fn sample_path(name: &str) -> PathBuf {
    Path::new(env!("CARGO_MANIFEST_DIR"))
        .join("../samples")
        .join(name)
}

/// Every sample that has a sheet, by name.
pub fn samples() -> Vec<Sample> {
    let mut samples: Vec<Sample> = fs::read_dir(sample_path(""))
        .expect("the samples are beside the host")
        .map(|entry| entry.unwrap().path())
        .filter(|path| {
            path.extension()
                .is_some_and(|extension| extension == "sheet")
        })
        .map(|path| Sample {
            name: path.file_stem().unwrap().to_str().unwrap().to_string(),
            sheet: fs::read(&path).unwrap(),
            printed: fs::read_to_string(path.with_extension("out")).unwrap(),
        })
        .collect();
    samples.sort_by(|one, other| one.name.cmp(&other.name));
    assert!(samples.len() >= 18, "only {} samples", samples.len());
    samples
}

/// The samples that a load accepts.
pub fn accepted_samples() -> Vec<Sample> {
    let mut samples = samples();
    samples.retain(|sample| !sample.printed.starts_with("sheet "));
    assert!(samples.len() >= 17, "only {} samples", samples.len());
    samples
}

pub fn sample(name: &str) -> Sample {
    samples()
        .into_iter()
        .find(|sample| sample.name == name)
        .unwrap()
}

pub fn refused(number: u32) -> Answer {
    Answer::Refused(Refusal::new(number).unwrap())
}

/// Words of a state and of an answer.
pub const STATE_WORDS: usize = 7;
pub const ANSWER_WORDS: usize = 4;

/// A sheet without constants and handlers.
pub fn sheet(max_stack: u16, max_locals: u16, code: &[u8], words: &[u32]) -> Vec<u8> {
    [
        sizes(max_stack, max_locals),
        record(b"CD", code),
        arguments(words),
    ]
    .concat()
}

/// A sheet without arguments, with constants and handlers between its code and its end.
pub fn sheet_with(max_stack: u16, max_locals: u16, code: &[u8], records: &[Vec<u8>]) -> Vec<u8> {
    [
        sizes(max_stack, max_locals),
        record(b"CD", code),
        records.concat(),
        arguments(&[]),
    ]
    .concat()
}

/// The record of a class: 1 where an ArithmeticException can be assigned to it, else 0.
pub fn class(index: u16, word: u32) -> Vec<u8> {
    constant(index, 7, &word.to_be_bytes())
}

/// A sheet with a descriptor, which stands between the sizes and the code.
pub fn with_descriptor(descriptor: &[u8], sheet: &[u8]) -> Vec<u8> {
    let (sizes, rest) = sheet.split_at(8);
    [sizes, &record(b"DS", descriptor), rest].concat()
}

impl<T: Copy + PartialEq + UpperHex> Lent<T> {
    /// A part between guards that are all the same.
    pub fn new(part: &[T], guard: T) -> Lent<T> {
        let guards = [guard; GUARD];
        Lent::between(&guards, part, &guards)
    }
}

/// How many words the parts of a memory have.
#[derive(Clone, Copy)]
pub struct Lengths {
    pub kinds: usize,
    pub words: usize,
    pub slots: usize,
    pub log: usize,
    pub state: usize,
    pub answer: usize,
}

/// Lengths that suit the small sheets of the tests, with more words of state and answer than a call
/// uses.
pub const ENOUGH: Lengths = Lengths {
    kinds: 20,
    words: 20,
    slots: 400,
    log: 60,
    state: STATE_WORDS + 2,
    answer: ANSWER_WORDS + 2,
};

/// No memory at all.
pub const NOTHING: Lengths = Lengths {
    kinds: 0,
    words: 0,
    slots: 0,
    log: 0,
    state: 0,
    answer: 0,
};

/// A call that has to come back with a number and to write nothing at all.
#[track_caller]
pub fn writes_nothing(
    memory: &Memory,
    call: impl FnOnce(&mut Memory) -> u32,
    number: u32,
    what: &dyn Display,
) {
    let mut after = memory.clone();
    assert_eq!(call(&mut after), number, "{what}");
    after.assert_equals(memory, what);
}

impl Memory {
    /// A sheet, and parts of these lengths that are filled with junk.
    pub fn new(sheet: &[u8], lengths: Lengths) -> Memory {
        let junk = |length| Lent::new(&vec![0xDEAD_BEEF_u32; length], 0xFEED_FACE);
        Memory {
            sheet: Lent::new(sheet, 0xA5),
            code: 0..0,
            kinds: Lent::new(&vec![0xCC; lengths.kinds], 0x5A),
            words: junk(lengths.words),
            handlers: Lent::new(&[], 0x5A),
            slots: junk(lengths.slots),
            log: junk(lengths.log),
            state: junk(lengths.state),
            answer: junk(lengths.answer),
            presses: Lent::new(&[], 0x5A),
            answers: junk(0),
            budget: 0,
        }
    }

    /// A memory into which a sheet is loaded.
    pub fn loaded(sheet: &[u8], lengths: Lengths) -> Memory {
        let mut memory = Memory::new(sheet, lengths);
        assert_eq!(memory.load(), 0);
        memory.take_parts();
        memory.answer.part_mut().fill(0xDEAD_BEEF);
        memory
    }

    /// A memory with a method that stands at an offset, with words on its operand stack.
    pub fn standing(max_stack: u16, code: &[u8], pc: u32, stack: &[u32]) -> Memory {
        let mut memory = Memory::loaded(&sheet(max_stack, 0, code, &[]), ENOUGH);
        memory.slots.part_mut()[..stack.len()].copy_from_slice(stack);
        memory.state.part_mut()[2] = pc;
        memory.state.part_mut()[3] = stack.len() as u32;
        memory
    }

    /// Lends handlers that no load has seen: bytes of any length.
    pub fn lend_handlers(&mut self, bytes: &[u8]) {
        self.handlers = self.handlers.with(bytes);
    }

    /// Makes the state and the answer parts of other lengths.
    pub fn cut(&mut self, state: usize, answer: usize) {
        self.state = Lent::new(&self.state.part()[..state], 0xFEED_FACE);
        self.answer = Lent::new(&self.answer.part()[..answer], 0xFEED_FACE);
    }

    /// Lends presses, with room for answers of a given number of words.
    pub fn lend_presses(&mut self, presses: &[u8], answers: usize) {
        self.presses = Lent::new(presses, 0x5A);
        self.answers = Lent::new(&vec![0xDEAD_BEEF; answers], 0xFEED_FACE);
    }

    pub fn load(&mut self) -> u32 {
        Function::Load.call(self)
    }

    pub fn step(&mut self) -> u32 {
        Function::Step.call(self)
    }

    pub fn forward(&mut self) -> u32 {
        Function::Forward.call(self)
    }

    pub fn back(&mut self) -> u32 {
        Function::Back.call(self)
    }

    pub fn run(&mut self, budget: u64) -> u32 {
        self.budget = budget;
        Function::Run.call(self)
    }

    pub fn presses(&mut self) -> u32 {
        Function::Presses.call(self)
    }

    /// What the typed functions are lent of it.
    pub fn parts(&self) -> Parts<'_> {
        Parts {
            code: self.code(),
            kinds: self.kinds.part(),
            words: self.words.part(),
            handlers: self.handlers.part(),
        }
    }

    /// Fails where a part or a guard is not what it should be, and says which.
    #[track_caller]
    pub fn assert_equals(&self, expected: &Memory, what: &dyn Display) {
        if let Some(difference) = self.difference(expected) {
            panic!("{what}: {difference}");
        }
    }
}

/// A loaded sheet with its memory, for the typed functions.
#[derive(Clone, PartialEq)]
pub struct Lesson {
    /// What is only read: the sheet with its code, the pool and the handlers.
    pub memory: Memory,
    pub slots: Lent<u32>,
    pub log: Lent<u32>,
    pub state: State,
}

impl Lesson {
    /// Loads a sheet, with a log of so many entries.
    pub fn new(sheet: &[u8], entries: usize) -> Lesson {
        let lengths = Lengths {
            slots: 300,
            log: 10 * entries,
            ..ENOUGH
        };
        let mut memory = Memory::new(sheet, lengths);
        let (mut slots, log) = (memory.slots.clone(), memory.log.clone());
        let (kinds, words) = (memory.kinds.part_mut(), memory.words.part_mut());
        let loaded = workbook_host::load(sheet, slots.part_mut(), kinds, words).unwrap();
        memory.code = loaded.code;
        memory.lend_handlers(&sheet[loaded.handlers]);
        Lesson {
            memory,
            slots,
            log,
            state: loaded.state,
        }
    }

    /// The locals and all places of the stack.
    pub fn frame(&self) -> &[u32] {
        &self.slots.part()[..self.state.frame()]
    }

    pub fn step(&mut self) -> Answer {
        workbook_host::step(self.memory.parts(), self.slots.part_mut(), &mut self.state)
    }

    pub fn press(&mut self, press: Press) -> Answer {
        let (parts, slots, log) = (
            self.memory.parts(),
            self.slots.part_mut(),
            self.log.part_mut(),
        );
        match press {
            Press::Forward => workbook_host::forward(parts, slots, log, &mut self.state),
            Press::Back => workbook_host::back(parts, slots, log, &mut self.state),
        }
    }

    pub fn run(&mut self, budget: u64) -> Ran {
        workbook_host::run(
            self.memory.parts(),
            self.slots.part_mut(),
            &mut self.state,
            budget,
        )
    }

    pub fn press_all(&mut self, list: &[Press]) -> Vec<Answer> {
        let (parts, slots, log) = (
            self.memory.parts(),
            self.slots.part_mut(),
            self.log.part_mut(),
        );
        workbook_host::presses(parts, slots, log, &mut self.state, list)
    }
}
