//! `fuzz [SEED [CALLS [CASE]]] [bare] [trace]`: calls the exported library with hostile memory, ten
//! million times unless told otherwise, and compares everything that was lent with what it has to
//! be. The first wrong thing ends it.
//!
//! After every call:
//!
//! - fuzz/promise.rs: guards around each part, parts that are only read, the numbers of a function,
//!   and what the boundary (include/workbook.h) lets a call write, without a look at any instruction;
//! - fuzz/boundary.rs: the number and every word, by this package's model.
//!
//! And of some calls: backs take forwards back, a list of presses is its presses, and a run is its
//! steps.
//!
//! Each case has a row of random numbers of its own, so that `fuzz SEED CALLS CASE` begins again at
//! any case. `bare` lends blocks of memory without guards, so that a tool that watches the heap sees
//! what is read outside of them: `valgrind fuzz 1 100000 bare`. `trace` tells every call before it
//! is made, for one that does not come back.
//!
//! Not seen here: reads outside of the lent parts (but see `bare`), registers that a call has to
//! keep, lengths that no slice can have, and overlapping parts, which no caller may lend.

#![forbid(unsafe_code)]

use std::env;
use std::process::ExitCode;
use std::time::Instant;

#[path = "fuzz/boundary.rs"]
mod boundary;
#[path = "fuzz/cases.rs"]
mod cases;
#[path = "fuzz/codes.rs"]
mod codes;
#[path = "fuzz/counts.rs"]
mod counts;
#[path = "fuzz/descriptors.rs"]
mod descriptors;
#[path = "fuzz/handlers.rs"]
mod handlers;
#[path = "fuzz/lent.rs"]
mod lent;
#[path = "fuzz/numbers.rs"]
mod numbers;
#[path = "fuzz/promise.rs"]
mod promise;
#[path = "fuzz/sheets.rs"]
mod sheets;
#[path = "fuzz/smaller.rs"]
mod smaller;

// What the host's tests use too.
#[path = "../../../host/tests/common/memory.rs"]
mod memory;
#[path = "../../../host/tests/common/random.rs"]
mod random;

use counts::Counts;
use memory::{Function, Lent, Memory};
use random::Random;

const SEED: u64 = 1;
const CALLS: u64 = 10_000_000;

/// What a call did that it should not have done.
struct Wrong {
    what: String,
    function: Function,
    before: Memory,
}

type Checked<T> = Result<T, Box<Wrong>>;

fn wrong(what: String, function: Function, before: &Memory) -> Box<Wrong> {
    let before = before.clone();
    Box::new(Wrong {
        what,
        function,
        before,
    })
}

/// Makes a call on a copy of a memory, and compares what it left.
fn compare(function: Function, before: &Memory, memory: &mut Memory) -> Result<u32, String> {
    let number = function.call(memory);
    promise::kept(function, before, memory, number).map_err(|what| format!("{number}: {what}"))?;
    let mut expected = before.clone();
    let expected_number = boundary::call(function, &mut expected);
    if number != expected_number {
        return Err(format!(
            "{number} came back, and should be {expected_number}"
        ));
    }
    match memory.difference(&expected) {
        None => Ok(number),
        Some(difference) => Err(format!("{number}: {difference}")),
    }
}

/// Compares two memories that two ways have led to.
fn same(one: &Memory, other: &Memory, function: Function, before: &Memory) -> Checked<()> {
    match one.difference(other) {
        None => Ok(()),
        Some(difference) => {
            let what = format!("one by one it is not the same: {difference}");
            Err(wrong(what, function, before))
        }
    }
}

struct Fuzz {
    counts: Counts,
    bare: bool,
    trace: bool,
}

impl Fuzz {
    fn call(&mut self, function: Function, memory: &mut Memory) -> Checked<u32> {
        if self.trace {
            let parts = memory.describe(function);
            eprintln!("call {}: {function:?}\n{parts}", self.counts.calls);
        }
        let before = memory.clone();
        let number = compare(function, &before, memory);
        let number = number.map_err(|what| wrong(what, function, &before))?;
        self.counts.add(function, &before, memory, number);
        Ok(number)
    }

    /// One memory, and some calls on it.
    fn case(&mut self, random: &mut Random) -> Checked<()> {
        let mut memory;
        if random.once_in(2) {
            memory = cases::to_load(random, self.bare);
            let mut number = self.call(Function::Load, &mut memory)?;
            while random.once_in(2) {
                memory = cases::to_load_again(random, &memory);
                number = self.call(Function::Load, &mut memory)?;
            }
            if number != 0 && !random.once_in(8) {
                return Ok(());
            }
            if number == 0 {
                memory.take_parts();
                let presses = 1 + random.below((memory.log.len() / 10).min(30) + 1);
                self.there_and_back(&memory, presses)?;
            }
        } else {
            memory = cases::standing(random, self.bare);
        }
        for _ in 0..1 + random.below(12) {
            match random.below(4) {
                0 => cases::instruct(random, &mut memory),
                1 | 2 => cases::disturb(random, &mut memory),
                _ => {}
            }
            self.some_call(random, &mut memory)?;
        }
        Ok(())
    }

    fn some_call(&mut self, random: &mut Random, memory: &mut Memory) -> Checked<()> {
        match random.below(32) {
            0..=6 => self.call(Function::Step, memory).map(drop),
            7..=13 => {
                let before = memory.clone();
                let granted = self.call(Function::Forward, memory)? == 0;
                if granted && random.once_in(2) {
                    self.there_and_back(&before, 1)?;
                }
                Ok(())
            }
            14..=18 => self.call(Function::Back, memory).map(drop),
            19..=24 => {
                cases::set_budget(random, memory);
                if memory.budget <= 20 && random.once_in(4) {
                    self.run_is_its_steps(memory)?;
                }
                self.call(Function::Run, memory).map(drop)
            }
            25..=30 => {
                cases::lend_presses(random, memory);
                if memory.presses.len() <= 16 && random.once_in(4) {
                    self.list_is_its_presses(memory)?;
                }
                self.call(Function::Presses, memory).map(drop)
            }
            _ => self.call(Function::Load, memory).map(drop),
        }
    }

    /// Forwards on a copy, as many as are granted, and as many backs: state and slots are restored.
    fn there_and_back(&mut self, memory: &Memory, presses: usize) -> Checked<()> {
        let mut copy = memory.clone();
        let mut granted = 0;
        while granted < presses && self.call(Function::Forward, &mut copy)? == 0 {
            granted += 1;
        }
        let mut expected = memory.clone();
        expected.log = copy.log.clone();
        expected.answer = copy.answer.clone();
        for _ in 0..granted {
            self.call(Function::Back, &mut copy)?;
        }
        self.counts.walks += u64::from(granted > 0);
        same(&copy, &expected, Function::Back, memory)
    }

    /// A list of presses leaves what its presses leave one at a time.
    fn list_is_its_presses(&mut self, memory: &Memory) -> Checked<()> {
        let mut list = memory.clone();
        if self.call(Function::Presses, &mut list)? != 0 {
            return Ok(());
        }
        let mut single = memory.clone();
        for (i, &press) in memory.presses.part().iter().enumerate() {
            // A press of a list needs no answer words: lend it zeros, so that a value shows.
            single.answer = Lent::guarded(&[0; 4], &mut Random::of_case(0, 0), self.bare);
            let function = if press == 0 {
                Function::Back
            } else {
                Function::Forward
            };
            let number = self.call(function, &mut single)?;
            let value = [single.answer.part()[0], single.answer.part()[1]];
            let answer = [number, value[0], value[1]];
            single.answers.part_mut()[3 * i..3 * i + 3].copy_from_slice(&answer);
        }
        single.answer = memory.answer.clone();
        self.counts.lists += 1;
        same(&list, &single, Function::Presses, memory)
    }

    /// A run leaves what its steps leave one at a time.
    fn run_is_its_steps(&mut self, memory: &Memory) -> Checked<()> {
        let mut run = memory.clone();
        let end = self.call(Function::Run, &mut run)?;
        if end <= 3 {
            return Ok(());
        }
        let mut single = memory.clone();
        single.answer.part_mut()[..2].fill(0);
        let (mut steps, mut last) = (0, 120);
        while steps < memory.budget && last == 120 {
            match self.call(Function::Step, &mut single)? {
                0 => steps += 1,
                number => last = number,
            }
        }
        single.state.part_mut()[4..6].fill(0);
        single.answer.part_mut()[2..4].copy_from_slice(&[steps as u32, 0]);
        self.counts.runs += 1;
        if last != end {
            let what = format!("a run ends in {end}, its steps in {last}");
            return Err(wrong(what, Function::Run, memory));
        }
        same(&run, &single, Function::Run, memory)
    }
}

/// The numbers of the command line, with `bare` and `trace` put into the fuzz. None where there is anything else.
fn arguments(fuzz: &mut Fuzz) -> Option<Vec<u64>> {
    let mut numbers = vec![];
    for argument in env::args().skip(1) {
        match (argument.as_str(), argument.parse()) {
            ("bare", _) => fuzz.bare = true,
            ("trace", _) => fuzz.trace = true,
            (_, Ok(number)) if numbers.len() < 3 => numbers.push(number),
            _ => return None,
        }
    }
    Some(numbers)
}

fn main() -> ExitCode {
    let mut fuzz = Fuzz {
        counts: Counts::new(),
        bare: false,
        trace: false,
    };
    let Some(numbers) = arguments(&mut fuzz) else {
        eprintln!("usage: fuzz [SEED [CALLS [CASE]]] [bare] [trace]");
        return ExitCode::from(2);
    };
    let number = |place: usize, default: u64| numbers.get(place).copied().unwrap_or(default);
    let (seed, calls, first) = (number(0, SEED), number(1, CALLS), number(2, 0));
    let start = Instant::now();
    let (mut case, mut told) = (first, 0);
    while fuzz.counts.calls < calls {
        if fuzz.counts.calls >= told {
            eprintln!("{} calls, at case {case}", fuzz.counts.calls);
            told += 100_000;
        }
        if let Err(wrong) = fuzz.case(&mut Random::of_case(seed, case)) {
            let call = fuzz.counts.calls;
            println!("wrong at call {call}, case {case} of seed {seed}");
            tell(*wrong);
            println!("again: fuzz {seed} 1 {case}");
            return ExitCode::FAILURE;
        }
        case += 1;
    }
    fuzz.counts.print();
    let (cases, seconds) = (case - first, start.elapsed().as_secs_f64());
    println!("seed {seed}, {cases} cases, {seconds:.1} seconds");
    println!("{} calls, 0 wrong", fuzz.counts.calls);
    ExitCode::SUCCESS
}

/// Prints what was wrong and what was lent, then a smaller memory where a single call shows it.
fn tell(wrong: Wrong) {
    let Wrong {
        what,
        function,
        before,
    } = wrong;
    println!("{function:?}: {what}\nlent:\n{}", before.describe(function));
    let (least, what) = smaller::smallest(function, &before, what);
    if least != before {
        println!("smaller: {what}\nlent:\n{}", least.describe(function));
    }
}
