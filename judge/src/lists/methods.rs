//! The sample methods of crates/step_traces, with what each is lent and the state that it starts from.
//!
//! A line of the file is one sample, 496 bytes with its line feed, all numbers in upper-case hexadecimal:
//!
//! ```text
//! columns   0- 39  the name
//!          41- 42  how many bytes of code are lent
//!          44-171  64 bytes of code
//!         173      how many kinds of constants are lent
//!         175-190  8 kinds
//!         192      how many words of constants are lent
//!         194-257  8 words
//!         259- 260 how many bytes of handlers are lent
//!         262- 341 40 bytes of handlers
//!         343      how many slots are lent
//!         345-440  12 slots
//!         442-445  max_stack
//!         447-450  max_locals
//!         452-459  pc
//!         461-468  depth
//!         470-485  count
//!         487-494  the return type
//! ```
//!
//! Bytes and words past those that are lent are 0. Each sample says how its walk ends. The first ones are
//! those of lists/methods.txt; then come the facts that none of these has (facts.rs), and the returns of
//! each return type (returns.rs).

use super::facts::facts;
use super::returns;
use super::text::{about, handlers, joined, listing as listing_of, number, rows, Settings};
use crate::step::{Method, State};
use bytecode::assembler::assemble_with_labels;
use bytecode::values::bytes;
use std::collections::HashSet;
use std::fmt::UpperHex;

/// A sample: its name, how its walk ends, what it is lent, and of some what the walk leaves on the stack.
#[derive(Clone, Debug)]
pub struct Sample {
    /// Its name.
    pub name: String,
    /// How its walk ends.
    pub end: String,
    /// The code.
    pub code: Vec<u8>,
    /// The kinds of the pool.
    pub kinds: Vec<u8>,
    /// The words of the pool.
    pub words: Vec<u32>,
    /// The handlers.
    pub handlers: Vec<u8>,
    /// The slots.
    pub slots: Vec<u32>,
    /// The state.
    pub state: State,
    /// The words on the stack after the walk, where they are said.
    pub leaves: Option<Vec<u32>>,
}

impl Sample {
    /// What a step reads.
    pub fn method(&self) -> Method<'_> {
        Method {
            code: &self.code,
            kinds: &self.kinds,
            words: &self.words,
            handlers: &self.handlers,
        }
    }

    /// Whether two samples are lent the same.
    fn is_lent_the_same(&self, other: &Sample) -> bool {
        let pool = (&self.kinds, &self.words) == (&other.kinds, &other.words);
        let code = (&self.code, &self.handlers) == (&other.code, &other.handlers);
        pool && code && self.slots == other.slots && self.state == other.state
    }
}

/// A word that no method uses, another one at each place.
fn junk(place: usize) -> u32 {
    0xDEAD_0000 + place as u32
}

/// What a method is lent: a local that is none, the rest of the stack and the spare slots hold junk.
#[derive(Default)]
pub struct Lent {
    /// Places of the operand stack.
    pub max_stack: usize,
    /// Locals.
    pub locals: Vec<Option<u32>>,
    /// Words on the stack.
    pub stack: Vec<Option<u32>>,
    /// Kinds and words of the pool.
    pub pool: Vec<(u8, u32)>,
    /// Slots past the frame.
    pub spare: usize,
}

impl Lent {
    /// A sample that begins at offset 0, with all words of the stack and count 7.
    pub fn sample(self, name: &str, end: &str, code: Vec<u8>) -> Sample {
        let (max_locals, depth) = (self.locals.len() as u32, self.stack.len());
        let more = (self.max_stack + self.spare).saturating_sub(depth);
        let held = self.locals.into_iter().chain(self.stack);
        let held = held.chain(std::iter::repeat_n(None, more)).enumerate();
        let (kinds, words) = self.pool.into_iter().unzip();
        Sample {
            name: name.to_string(),
            end: end.to_string(),
            code,
            kinds,
            words,
            handlers: vec![],
            slots: held
                .map(|(place, word)| word.unwrap_or(junk(place)))
                .collect(),
            state: State {
                max_stack: self.max_stack as u32,
                max_locals,
                pc: 0,
                depth: depth as u32,
                count: 7,
                return_type: 0,
            },
            leaves: None,
        }
    }
}

const KEYWORDS: [&str; 15] = [
    "max_stack",
    "locals",
    "stack",
    "pool",
    "handlers",
    "rest",
    "spare",
    "pc",
    "depth",
    "count",
    "returns",
    "kinds",
    "words",
    "slots",
    "state",
];

/// A sample of lists/methods.txt.
fn read(row: &[&str]) -> Result<Sample, String> {
    let [name, lent, listing, end] = row else {
        return Err("a sample has four columns".to_string());
    };
    let said = Settings::read(lent, &KEYWORDS)?;
    let lent = Lent {
        max_stack: said.number("max_stack")?.ok_or("max_stack is not said")?,
        locals: said.values("locals")?.unwrap_or_default(),
        stack: said.values("stack")?.unwrap_or_default(),
        pool: pool(said.words("pool").unwrap_or_default())?,
        spare: said.number("spare")?.unwrap_or(1),
    };
    let text = listing_of(listing);
    let (code, labels) = assemble_with_labels(&text)?;
    let mut sample = lent.sample(name, end, code);
    sample.handlers = handlers(said.words("handlers").unwrap_or_default(), &labels)?;
    let rest = said.words("rest").unwrap_or_default().concat();
    sample.handlers.extend(bytes(&rest)?);
    let state = &mut sample.state;
    state.pc = said.number("pc")?.unwrap_or(state.pc);
    state.depth = said.number("depth")?.unwrap_or(state.depth);
    state.count = said.number("count")?.unwrap_or(state.count);
    sample.kinds = said.numbers("kinds")?.unwrap_or(sample.kinds);
    sample.words = said.numbers("words")?.unwrap_or(sample.words);
    if let Some(slots) = said.values("slots")? {
        sample.slots = slots.into_iter().flatten().collect();
    }
    if let Some([max_stack, max_locals, pc, depth, count]) = said.numbers("state")?.as_deref() {
        sample.state = State {
            max_stack: *max_stack as u32,
            max_locals: *max_locals as u32,
            pc: *pc as u32,
            depth: *depth as u32,
            count: *count,
            return_type: 0,
        };
    }
    if let Some(words) = said.words("returns") {
        sample.state.return_type = return_type(words)?;
    }
    Ok(sample)
}

/// A return type: a letter, which stands for its ASCII number, or any number.
fn return_type(words: &[&str]) -> Result<u32, String> {
    match words {
        [letter] if letter.len() == 1 && !letter.starts_with(|first: char| first.is_numeric()) => {
            Ok(letter.as_bytes()[0].into())
        }
        [word] => number(word),
        _ => Err("a method has one return type".to_string()),
    }
}

/// The kinds and words of a pool, each KIND:WORD.
fn pool(words: &[&str]) -> Result<Vec<(u8, u32)>, String> {
    let entry = |word: &&str| {
        let (kind, bits) = word.split_once(':').ok_or("a pool has kinds and words")?;
        let bits = u32::from_str_radix(bits, 16).map_err(|_| format!("{bits} is no word"))?;
        Ok((number(kind)?, bits))
    };
    words.iter().map(entry).collect()
}

/// All samples. A fact that a sample by hand has, on the same method and words, has none of its own.
pub fn samples(facts_file: &str) -> Result<Vec<Sample>, String> {
    let file = include_str!("../../lists/methods.txt");
    let by_hand = rows(file).map(|row| read(&row).map_err(about(row[0])));
    let mut samples = by_hand.collect::<Result<Vec<Sample>, String>>()?;
    let many = samples.len();
    for fact in facts(facts_file)? {
        if !samples[..many]
            .iter()
            .any(|other| other.is_lent_the_same(&fact))
        {
            samples.push(fact);
        }
    }
    samples.extend(returns::samples()?);
    let mut names = HashSet::new();
    match samples.iter().find(|sample| !names.insert(&sample.name)) {
        None => Ok(samples),
        Some(again) => Err(format!("{} is there twice", again.name)),
    }
}

/// The file of samples.
pub fn stdin(samples: &[Sample]) -> Result<Vec<u8>, String> {
    let lines = samples.iter().map(line).collect::<Result<Vec<_>, _>>()?;
    Ok(joined(lines))
}

fn line(sample: &Sample) -> Result<String, String> {
    let Sample {
        name,
        code,
        kinds,
        words,
        handlers,
        slots,
        state,
        ..
    } = sample;
    let lent = [
        (code.len(), 64),
        (kinds.len(), 8),
        (words.len(), 8),
        (handlers.len(), 40),
        (slots.len(), 12),
    ];
    if name.len() > 40 || lent.iter().any(|(many, most)| many > most) {
        return Err(format!("{name} does not fit its line"));
    }
    let parts = [
        format!("{name:40}"),
        format!("{:02X}", code.len()),
        filled(code, 2, 64),
        format!("{:X}", kinds.len()),
        filled(kinds, 2, 8),
        format!("{:X}", words.len()),
        filled(words, 8, 8),
        format!("{:02X}", handlers.len()),
        filled(handlers, 2, 40),
        format!("{:X}", slots.len()),
        filled(slots, 8, 12),
        format!("{:04X} {:04X}", state.max_stack, state.max_locals),
        format!("{:08X} {:08X} {:016X}", state.pc, state.depth, state.count),
        format!("{:08X}", state.return_type),
    ];
    Ok(parts.join(" "))
}

/// Numbers as digits without blanks, and zeros up to a count.
fn filled<T: UpperHex>(numbers: &[T], width: usize, count: usize) -> String {
    let digits: String = numbers
        .iter()
        .map(|number| format!("{number:0width$X}"))
        .collect();
    digits + &"0".repeat(width * (count - numbers.len()))
}
