//! The library's functions on typed states and answers. Nothing here decides anything: words become
//! types and types become words.

use crate::answers::{answer, end, joined, refusal};
use crate::{ffi, version, Answer, Ran, Refusal, ReturnType};
use std::ops::Range;

/// Words of a log entry, which one step takes.
pub const LOG_WORDS: usize = 10;

/// Words of a state.
const STATE_WORDS: usize = 7;

/// Where a walk stands, apart from its slots.
///
/// ```
/// use workbook_host::{ReturnType, State, Walk};
///
/// // max_stack 2, max_locals 1; ICONST_3, ISTORE_0, RETURN.
/// let sheet = b"LM\x00\x04\x00\x02\x00\x01CD\x00\x03\x06\x3B\xB1AR\x00\x00";
/// let state = Walk::open(sheet.to_vec())?.state();
/// let return_type = ReturnType::NONE;
/// let start = State { max_stack: 2, max_locals: 1, pc: 0, depth: 0, count: 0, return_type };
/// assert_eq!(state, start);
/// assert_eq!(state.frame(), 3);
/// # Ok::<(), workbook_host::Refusal>(())
/// ```
#[derive(Clone, Copy, Debug, PartialEq, Eq, Hash)]
pub struct State {
    /// How many places the operand stack may have.
    pub max_stack: u16,
    /// How many locals there are.
    pub max_locals: u16,
    /// The offset of the next instruction in the code.
    pub pc: u32,
    /// How many places of the operand stack are in use.
    pub depth: u32,
    /// How many entries of the log are in use.
    pub count: u64,
    /// What the sheet's descriptor says that the method returns. No step changes it.
    pub return_type: ReturnType,
}

impl State {
    /// How many slots the frame has: the locals, then the places of the operand stack.
    #[must_use]
    pub fn frame(&self) -> usize {
        usize::from(self.max_locals) + usize::from(self.max_stack)
    }

    fn to_words(self) -> [u32; STATE_WORDS] {
        let (low, high) = (self.count as u32, (self.count >> 32) as u32);
        [
            self.max_stack.into(),
            self.max_locals.into(),
            self.pc,
            self.depth,
            low,
            high,
            self.return_type.word(),
        ]
    }

    fn from_words(words: [u32; STATE_WORDS]) -> State {
        let [max_stack, max_locals, pc, depth, low, high, return_type] = words;
        let size = |word| u16::try_from(word).expect("the library gives sizes of 16 bits");
        State {
            max_stack: size(max_stack),
            max_locals: size(max_locals),
            pc,
            depth,
            count: joined(low, high),
            return_type: ReturnType::from_word(return_type),
        }
    }

    /// Lends the state's words to a call, and takes what it left in them.
    fn lend(&mut self, call: impl FnOnce(&mut [u32]) -> u32) -> u32 {
        version::check();
        let mut words = self.to_words();
        let number = call(&mut words);
        *self = State::from_words(words);
        number
    }
}

/// What a step reads and never writes: the code, the constant pool and the exception table. Any
/// slices will do; what does not fit is refused.
///
/// ```
/// use workbook_host::{load, step, Answer, Parts};
///
/// // ICONST_3, ICONST_4, IADD, IRETURN.
/// let sheet = b"LM\x00\x04\x00\x02\x00\x00CD\x00\x04\x06\x07\x60\xACAR\x00\x00";
/// let (mut slots, mut kinds, mut words) = ([0; 2], [], []);
/// let mut loaded = load(sheet, &mut slots, &mut kinds, &mut words)?;
/// let (code, handlers) = (&sheet[loaded.code], &sheet[loaded.handlers]);
/// let parts = Parts { code, kinds: &kinds, words: &words, handlers };
/// assert_eq!(step(parts, &mut slots, &mut loaded.state), Answer::Granted);
/// assert_eq!((loaded.state.pc, loaded.state.depth, slots), (1, 1, [3, 0]));
/// # Ok::<(), workbook_host::Refusal>(())
/// ```
#[derive(Clone, Copy, Debug)]
pub struct Parts<'a> {
    /// The part of the sheet that the load handed back as the code.
    pub code: &'a [u8],
    /// The constant pool's tags, by index.
    pub kinds: &'a [u8],
    /// The constant pool's words, by index.
    pub words: &'a [u32],
    /// The part of the sheet that the load handed back as the exception table, 12 bytes an entry.
    /// [`back`] does not look at it.
    pub handlers: &'a [u8],
}

/// What an accepted load gives.
///
/// ```
/// use workbook_host::{load, Refusal};
///
/// // max_stack 0, max_locals 1; RETURN; one argument.
/// let sheet = b"LM\x00\x04\x00\x00\x00\x01CD\x00\x01\xB1AR\x00\x04\x00\x00\x00\x05";
/// let mut slots = [9; 2];
/// let loaded = load(sheet, &mut slots, &mut [], &mut [])?;
/// assert_eq!(sheet[loaded.code], [0xB1]);
/// // There are no handlers: the empty part before the arguments.
/// assert_eq!(loaded.handlers, 13..13);
/// // The argument; what lies beyond the frame is left.
/// assert_eq!(slots, [5, 9]);
/// assert_eq!(load(sheet, &mut [], &mut [], &mut []), Err(Refusal::SHEET_MEMORY));
/// # Ok::<(), Refusal>(())
/// ```
#[derive(Clone, Debug, PartialEq, Eq)]
#[non_exhaustive]
pub struct Loaded {
    /// The state at the start of the walk.
    pub state: State,
    /// Where the code lies in the sheet.
    pub code: Range<usize>,
    /// Where the exception table lies in the sheet: its `EX` records, 12 bytes each.
    pub handlers: Range<usize>,
}

/// A press of one of the two buttons.
///
/// ```
/// use workbook_host::{load, presses, Answer, Parts, Press, Refusal, LOG_WORDS};
///
/// // NOP, RETURN, and a log of one entry.
/// let sheet = b"LM\x00\x04\x00\x00\x00\x00CD\x00\x02\x00\xB1AR\x00\x00";
/// let mut loaded = load(sheet, &mut [], &mut [], &mut [])?;
/// let parts = Parts { code: &sheet[loaded.code], kinds: &[], words: &[], handlers: &[] };
/// let mut log = [0; LOG_WORDS];
/// let list = [Press::Back, Press::Forward, Press::Back];
/// let answers = presses(parts, &mut [], &mut log, &mut loaded.state, &list);
/// assert_eq!(answers, [Answer::Refused(Refusal::START), Answer::Granted, Answer::Granted]);
/// # Ok::<(), Refusal>(())
/// ```
#[derive(Clone, Copy, Debug, PartialEq, Eq, Hash)]
pub enum Press {
    /// One step further, with an entry in the log.
    Forward,
    /// The last step taken back.
    Back,
}

/// Loads a sheet into lent memory.
///
/// # Errors
///
/// The refusal, from 21 to 27, 31 or 33. A refused load writes nothing.
pub fn load(
    sheet: &[u8],
    slots: &mut [u32],
    kinds: &mut [u8],
    words: &mut [u32],
) -> Result<Loaded, Refusal> {
    version::check();
    let (mut state, mut place) = ([0; STATE_WORDS], [0; 4]);
    match ffi::load(sheet, slots, kinds, words, &mut state, &mut place) {
        0 => {
            let [code, code_length, handlers, handlers_length] = place.map(|word| word as usize);
            Ok(Loaded {
                state: State::from_words(state),
                code: code..code + code_length,
                handlers: handlers..handlers + handlers_length,
            })
        }
        number => Err(refusal(number)),
    }
}

/// One step without history. An ordinary step gives count 0: it ends a walk, because the log no
/// longer says how to go back.
pub fn step(parts: Parts, slots: &mut [u32], state: &mut State) -> Answer {
    let Parts {
        code,
        kinds,
        words,
        handlers,
    } = parts;
    let mut value = [0; 4];
    let number =
        state.lend(|state| ffi::step(code, kinds, words, handlers, slots, state, &mut value));
    answer(number, value[0], value[1])
}

/// One step with history: the log says how to take it back.
pub fn forward(parts: Parts, slots: &mut [u32], log: &mut [u32], state: &mut State) -> Answer {
    let Parts {
        code,
        kinds,
        words,
        handlers,
    } = parts;
    let mut value = [0; 4];
    let number = state
        .lend(|state| ffi::forward(code, kinds, words, handlers, slots, log, state, &mut value));
    answer(number, value[0], value[1])
}

/// Takes the last step back. The answer is granted or refused.
pub fn back(parts: Parts, slots: &mut [u32], log: &[u32], state: &mut State) -> Answer {
    let Parts {
        code, kinds, words, ..
    } = parts;
    let number = state.lend(|state| ffi::back(code, kinds, words, slots, log, state));
    answer(number, 0, 0)
}

/// Steps without history until an outcome, a refusal, or the budget's end.
///
/// The state is then where the run stands, with count 0: a run ends a walk. Only a run that its
/// first three questions refuse (memory, pc, depth) leaves the state as it was. In a method that
/// does not end, a run takes as long as its budget says.
pub fn run(parts: Parts, slots: &mut [u32], state: &mut State, budget: u64) -> Ran {
    let Parts {
        code,
        kinds,
        words,
        handlers,
    } = parts;
    let mut report = [0; 4];
    let number = state.lend(|state| {
        ffi::run(
            code,
            kinds,
            words,
            handlers,
            slots,
            state,
            &mut report,
            budget,
        )
    });
    let [low, high, steps_low, steps_high] = report;
    Ran {
        end: end(number, low, high),
        steps: joined(steps_low, steps_high),
    }
}

/// Makes a list of presses, one after the other, in one call. Each press has its own answer, and
/// the list goes on after a refused one.
#[must_use = "a press of the list may be refused"]
pub fn presses(
    parts: Parts,
    slots: &mut [u32],
    log: &mut [u32],
    state: &mut State,
    list: &[Press],
) -> Vec<Answer> {
    let bytes: Vec<u8> = list
        .iter()
        .map(|press| u8::from(*press == Press::Forward))
        .collect();
    let mut answers = vec![[0; 3]; list.len()];
    let room = answers.as_flattened_mut();
    let Parts {
        code,
        kinds,
        words,
        handlers,
    } = parts;
    let number = state.lend(|state| {
        ffi::presses(
            code, kinds, words, handlers, slots, log, state, &bytes, room,
        )
    });
    // The only other number is for too few words of state or answers, and there are enough of both.
    assert_eq!(
        number, 0,
        "the library makes every list of presses that has room for its answers"
    );
    answers
        .into_iter()
        .map(|[number, low, high]| answer(number, low, high))
        .collect()
}

#[cfg(test)]
mod tests {
    use super::*;

    #[test]
    fn a_state_is_seven_words_low_word_first() {
        let state = State {
            max_stack: 65_535,
            max_locals: 2,
            pc: 3,
            depth: 0xFFFF_FFFF,
            count: 0x0000_0005_8000_0004,
            return_type: ReturnType::from_word(0x142),
        };
        let words = [65_535, 2, 3, 0xFFFF_FFFF, 0x8000_0004, 5, 0x142];
        assert_eq!(state.to_words(), words);
        assert_eq!(State::from_words(words), state);
        assert_eq!(state.frame(), 65_537);
    }
}
