//! The methods that lists of presses walk: lists/pressed_methods.txt.

use super::Begin;
use crate::answers::Answer;
use crate::lists::text::{about, handlers, listing as listing_of, rows, Settings};
use crate::sheet::load;
use crate::step::{run, Method, State};
use bytecode::assembler::assemble_with_labels;
use bytecode::{records, source};

/// The most steps that are taken to see how a method ends.
const MOST_STEPS: u64 = 130;

/// A method: how its walk ends, after how many steps, the sheet, and how many slots and constants are lent.
#[derive(Clone, Debug)]
pub struct Pressed {
    /// Its name.
    pub name: String,
    /// How its walk ends.
    pub end: Answer,
    /// After how many steps.
    pub steps: usize,
    /// The sheet.
    pub sheet: Vec<u8>,
    /// Slots.
    pub slots: usize,
    /// Kinds, and as many words.
    pub pool: usize,
}

/// The methods, in three groups.
pub struct Methods {
    /// Methods that return, throw or go on.
    pub good: Vec<Pressed>,
    /// Methods that are refused at some step.
    pub refused: Vec<Pressed>,
    /// Those of the lists from other states.
    pub held: Vec<Pressed>,
}

impl Methods {
    /// The method of a name that is there.
    pub fn named(&self, name: &str) -> &Pressed {
        let mut all = self.good.iter().chain(&self.held);
        let found = all.find(|method| method.name == name);
        found.unwrap_or_else(|| panic!("there is no method {name}"))
    }
}

/// What lies in the lent parts after a load that found junk there, and the state to begin with.
#[derive(Clone, Debug)]
pub struct Loaded {
    code: Vec<u8>,
    kinds: Vec<u8>,
    words: Vec<u32>,
    handlers: Vec<u8>,
    /// The slots.
    pub slots: Vec<u32>,
    /// The state.
    pub state: State,
}

impl Loaded {
    /// What a step reads.
    pub fn method(&self) -> Method<'_> {
        Method {
            code: &self.code,
            kinds: &self.kinds,
            words: &self.words,
            handlers: &self.handlers,
        }
    }
}

/// Loads a sheet, or gives the number of its refusal.
pub fn loaded(sheet: &[u8], slots: usize, pool: usize, begin: Begin) -> Result<Loaded, u32> {
    let (mut kinds, mut words) = (vec![0xAB; pool], vec![0xDEAD_DEAD; pool]);
    let mut slots = vec![0xBEEF_BEEF; slots];
    let loaded = load(sheet, &mut slots, &mut kinds, &mut words)?;
    let Begin { pc, depth, count } = begin;
    Ok(Loaded {
        code: sheet[loaded.code].to_vec(),
        kinds,
        words,
        handlers: sheet[loaded.handlers].to_vec(),
        slots,
        state: State {
            pc,
            depth,
            count,
            ..loaded.state
        },
    })
}

/// The groups of the file.
pub fn methods() -> Result<Methods, String> {
    let file = include_str!("../../../lists/pressed_methods.txt");
    let group = |name: &str| {
        let from = file
            .split(&format!("[{name}]\n"))
            .nth(1)
            .unwrap_or_default();
        let rows = rows(from.split("\n[").next().unwrap_or_default());
        let methods = rows.map(|row| read(&row).map_err(about(row[0])));
        methods.collect::<Result<Vec<Pressed>, String>>()
    };
    Ok(Methods {
        good: group("good")?,
        refused: group("refused")?,
        held: group("held")?,
    })
}

const KEYWORDS: [&str; 8] = [
    "max_stack",
    "descriptor",
    "arguments",
    "more",
    "constants",
    "handlers",
    "spare",
    "pool",
];

fn read(row: &[&str]) -> Result<Pressed, String> {
    let [name, lent, listing, end] = row else {
        return Err("a method has four columns".to_string());
    };
    let said = Settings::read(lent, &KEYWORDS)?;
    let (sheet, frame) = sheet_and_frame(&said, listing)?;
    let slots = frame + said.number("spare")?.unwrap_or(0);
    let pool = said.number("pool")?.unwrap_or(0);
    let begun = loaded(&sheet, slots, pool, Begin::LOAD);
    let begun = begun.map_err(|number| format!("the sheet is refused with {number}"))?;
    let (mut frame, mut state) = (begun.slots.clone(), begun.state);
    let (ended, steps) = run(&begun.method(), &mut frame, &mut state, MOST_STEPS);
    if ended.to_string() != *end {
        return Err(format!("it ends with {ended}"));
    }
    Ok(Pressed {
        name: name.to_string(),
        end: ended,
        steps: steps as usize,
        sheet,
        slots,
        pool,
    })
}

/// The sheet of a method, and how many slots its frame has.
fn sheet_and_frame(said: &Settings, listing: &str) -> Result<(Vec<u8>, usize), String> {
    let arguments = said.values("arguments")?.unwrap_or_default();
    let arguments: Vec<u32> = arguments.into_iter().flatten().collect();
    let max_stack: u16 = said.number("max_stack")?.ok_or("max_stack is not said")?;
    let max_locals = arguments.len() as u16 + said.number("more")?.unwrap_or(0);
    let descriptors = said.words("descriptor").unwrap_or_default().iter();
    let text = listing_of(listing);
    let (code, labels) = assemble_with_labels(&text)?;
    let sheet = [
        records::sizes(max_stack, max_locals),
        descriptors
            .flat_map(|text| records::descriptor(text.as_bytes()))
            .collect(),
        records::record(b"CD", &code),
        constants(said.words("constants").unwrap_or_default())?,
        handlers(said.words("handlers").unwrap_or_default(), &labels)?,
        records::arguments(&arguments),
    ];
    let frame = usize::from(max_stack) + usize::from(max_locals);
    Ok((sheet.concat(), frame))
}

/// The records of constants, each an index, a kind and a value.
fn constants(words: &[&str]) -> Result<Vec<u8>, String> {
    let records = words.chunks(3).map(|words| match words {
        [index, kind, value] => source::constant(index, kind, value),
        _ => Err("a constant has an index, a kind and a value".to_string()),
    });
    Ok(records.collect::<Result<Vec<_>, _>>()?.concat())
}
