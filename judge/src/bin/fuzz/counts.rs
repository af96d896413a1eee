//! What was called how often.

use super::memory::{Function, Memory};
use judge::shapes::places;

/// Numbers that come back are below this.
const NUMBERS: usize = 128;

/// The calls made so far.
pub struct Counts {
    pub calls: u64,
    /// By function and by number; the last are the answers to the presses of lists.
    numbers: [[u64; NUMBERS]; 7],
    /// Ordinary steps, returns and exceptions of steps and forwards, by opcode.
    opcodes: [u64; 256],
    /// Steps that runs have reported.
    run_steps: u64,
    /// Accepted sheets with a descriptor, and ints that a step or a forward returned narrowed.
    typed: u64,
    narrowed: u64,
    /// Accepted sheets with handlers; divisions by 0 that a step or a forward caught, and those that it did not.
    handled: u64,
    caught: u64,
    thrown: u64,
    /// How often back took forwards back, a list was its presses, a run was its steps.
    pub walks: u64,
    pub lists: u64,
    pub runs: u64,
}

impl Counts {
    pub fn new() -> Counts {
        Counts {
            calls: 0,
            numbers: [[0; NUMBERS]; 7],
            opcodes: [0; 256],
            run_steps: 0,
            typed: 0,
            narrowed: 0,
            handled: 0,
            caught: 0,
            thrown: 0,
            walks: 0,
            lists: 0,
            runs: 0,
        }
    }

    /// Counts a call that went right.
    pub fn add(&mut self, function: Function, before: &Memory, after: &Memory, number: u32) {
        self.calls += 1;
        self.numbers[function as usize][number as usize] += 1;
        let one = matches!(function, Function::Step | Function::Forward);
        if one && matches!(number, 0 | 101..) {
            let opcode = before.code()[before.state_word(2) as usize];
            self.opcodes[usize::from(opcode)] += 1;
        }
        if one && number == 101 {
            let top = before.state_word(1) + before.state_word(3) - 1;
            let int = before.slots.part()[top as usize];
            self.narrowed += u64::from(after.answer.part()[0] != int);
        }
        if function == Function::Load && number == 0 {
            self.typed += u64::from(after.state_word(6) != 0);
            self.handled += u64::from(after.answer.part()[3] != 0);
        }
        if one && number == 0 && divides_by_0(before) {
            self.caught += 1;
        }
        self.thrown += u64::from(one && number == 110);
        if function == Function::Presses && number == 0 {
            let answers = after.answers.part().chunks_exact(3);
            for answer in answers.take(after.presses.len()) {
                self.numbers[6][answer[0] as usize] += 1;
            }
        }
        if function == Function::Run && number > 3 {
            let [low, high] = [2, 3].map(|place| u64::from(after.answer.part()[place]));
            self.run_steps += low | high << 32;
        }
    }

    /// Prints how often each number came back.
    pub fn print(&self) {
        let columns = Function::ALL.map(|function| format!("{function:?}").to_lowercase());
        let names = columns.map(|name| format!(" {name:>9}")).concat();
        println!("number{names}  in lists");
        let line = |name: &str, counts: [u64; 7]| {
            let numbers = counts.map(|count| format!(" {count:9}")).concat();
            println!("{name:6}{numbers}");
        };
        for number in 0..NUMBERS {
            let counts = self.numbers.map(|counts| counts[number]);
            if counts != [0; 7] {
                line(&number.to_string(), counts);
            }
        }
        line("all", self.numbers.map(|counts| counts.iter().sum()));
        let core = (0..=255).filter(|opcode| places(*opcode).is_some());
        let met = core.map(|opcode| self.opcodes[usize::from(opcode)]);
        let (many, least) = (met.clone().filter(|count| *count > 0).count(), met.min());
        let least = least.unwrap_or(0);
        println!("{many} opcodes stepped over or ended in, the rarest {least} times");
        println!("{} steps in runs", self.run_steps);
        let (typed, narrowed) = (self.typed, self.narrowed);
        println!("{typed} accepted sheets with a descriptor, {narrowed} ints narrowed");
        let (handled, caught, thrown) = (self.handled, self.caught, self.thrown);
        println!("{handled} accepted sheets with handlers, {caught} divisions by 0 caught, {thrown} not caught");
        let (walks, lists, runs) = (self.walks, self.lists, self.runs);
        println!("{walks} walks there and back, {lists} lists and {runs} runs one by one");
    }
}

/// Whether a memory that the first questions passed stands at a division by 0.
fn divides_by_0(memory: &Memory) -> bool {
    let size = match memory.code()[memory.state_word(2) as usize] {
        108 | 112 => 1,
        109 | 113 => 2,
        _ => return false,
    };
    let above = memory.state_word(1) as usize + memory.state_word(3) as usize;
    let divisor = &memory.slots.part()[above - size..above];
    divisor.iter().all(|word| *word == 0)
}
