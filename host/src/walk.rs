//! A walk that owns its memory, for programs.

use crate::room::Room;
use crate::{calls, Answer, Parts, Ran, Refusal, ReturnType, State, LOG_WORDS};
use bytecode::mnemonics;
use std::ops::Range;

/// How many entries a log that grows has after its first step.
const FIRST_ENTRIES: usize = 64;

/// One entry of the log.
type Entry = [u32; LOG_WORDS];

/// A loaded sheet with its memory and its log.
///
/// The memory is private and has what the sheet asks for, so what a walk shows is always a stage of
/// the plain walk of its sheet: the offset, the locals and the stack after [`Walk::count`] steps
/// from the start.
///
/// ```
/// use workbook_host::{Answer, Refusal, Walk};
///
/// // max_stack 1, max_locals 1; ILOAD_0, ISTORE_0, RETURN; one argument.
/// let sheet = b"LM\x00\x04\x00\x01\x00\x01CD\x00\x03\x1A\x3B\xB1AR\x00\x04\x00\x00\x00\x05";
/// let mut walk = Walk::open(sheet.to_vec())?;
/// assert_eq!(walk.next_instruction(), "iload_0");
/// assert_eq!(walk.forward(), Answer::Granted);
/// assert_eq!((walk.locals(), walk.stack()), (&[5][..], &[5][..]));
/// assert_eq!(walk.back(), Answer::Granted);
/// assert_eq!(walk.back(), Answer::Refused(Refusal::START));
/// # Ok::<(), Refusal>(())
/// ```
#[derive(Clone, Debug)]
pub struct Walk {
    method: Method,
    slots: Vec<u32>,
    log: Vec<Entry>,
    log_grows: bool,
    state: State,
}

/// What no press writes.
#[derive(Clone, Debug)]
struct Method {
    sheet: Vec<u8>,
    code: Range<usize>,
    kinds: Vec<u8>,
    words: Vec<u32>,
    handlers: Range<usize>,
}

impl Method {
    fn parts(&self) -> Parts<'_> {
        Parts {
            code: &self.sheet[self.code.clone()],
            kinds: &self.kinds,
            words: &self.words,
            handlers: &self.sheet[self.handlers.clone()],
        }
    }
}

/// Where a run on a copy ended.
///
/// ```
/// use workbook_host::Walk;
///
/// // ICONST_3, ICONST_4, IADD, IRETURN.
/// let sheet = b"LM\x00\x04\x00\x02\x00\x00CD\x00\x04\x06\x07\x60\xACAR\x00\x00";
/// let walk = Walk::open(sheet.to_vec())?;
/// let reached = walk.run(u64::MAX);
/// assert_eq!((reached.ran.steps, reached.state.pc), (3, 3));
/// // The sum, and the 4 that still stands above the top.
/// assert_eq!(reached.frame, [7, 4]);
/// assert_eq!(walk.count(), 0);
/// # Ok::<(), workbook_host::Refusal>(())
/// ```
#[derive(Clone, Debug, PartialEq, Eq)]
#[must_use = "the walk itself stays where it is"]
#[non_exhaustive]
pub struct Reached {
    /// Why it ended, and after how many steps.
    pub ran: Ran,
    /// The state there. Its count is 0, because a run has no history.
    pub state: State,
    /// The locals there, then all places of the operand stack.
    pub frame: Vec<u32>,
}

impl Walk {
    /// Loads a sheet, with a log that grows: forward is never refused by a full log, and the walk
    /// takes 40 bytes more for each step.
    ///
    /// # Errors
    ///
    /// The refusal of the sheet, from 21 to 27, 31 or 33. There is memory for every sheet, so 26 is
    /// left for one whose exception table has 2 to the 32nd bytes or more.
    pub fn open(sheet: Vec<u8>) -> Result<Walk, Refusal> {
        Walk::open_logged(sheet, 0, true)
    }

    /// Loads a sheet, with a log of a given number of entries: where it is full, forward is refused
    /// with 12.
    ///
    /// # Errors
    ///
    /// As [`Walk::open`].
    pub fn open_with_log(sheet: Vec<u8>, entries: usize) -> Result<Walk, Refusal> {
        Walk::open_logged(sheet, entries, false)
    }

    fn open_logged(sheet: Vec<u8>, entries: usize, log_grows: bool) -> Result<Walk, Refusal> {
        let room = Room::of(&sheet);
        let (mut kinds, mut words) = (vec![0; room.pool], vec![0; room.pool]);
        let mut slots = vec![0; room.slots];
        let loaded = calls::load(&sheet, &mut slots, &mut kinds, &mut words)?;
        let method = Method {
            sheet,
            code: loaded.code,
            kinds,
            words,
            handlers: loaded.handlers,
        };
        let log = vec![Entry::default(); entries];
        Ok(Walk {
            method,
            slots,
            log,
            log_grows,
            state: loaded.state,
        })
    }

    /// One step further.
    pub fn forward(&mut self) -> Answer {
        match self.press_forward() {
            Answer::Refused(Refusal::LOG_FULL) if self.log_grows => {
                // A refused press wrote nothing, so it can be made again.
                let entries = (2 * self.log.len()).max(FIRST_ENTRIES);
                self.log.resize(entries, Entry::default());
                self.press_forward()
            }
            answer => answer,
        }
    }

    fn press_forward(&mut self) -> Answer {
        let log = self.log.as_flattened_mut();
        calls::forward(self.method.parts(), &mut self.slots, log, &mut self.state)
    }

    /// The last step taken back; refused with 13 at the start.
    pub fn back(&mut self) -> Answer {
        let log = self.log.as_flattened();
        calls::back(self.method.parts(), &mut self.slots, log, &mut self.state)
    }

    /// Runs from where the walk stands, on a copy of the frame. A run ends a walk, because it keeps
    /// no history and its count is 0; so this walk stays where it is.
    pub fn run(&self, budget: u64) -> Reached {
        let (mut state, mut frame) = (self.state, self.slots.clone());
        let ran = calls::run(self.method.parts(), &mut frame, &mut state, budget);
        Reached { ran, state, frame }
    }

    /// What the steps of this walk read.
    #[must_use]
    pub fn parts(&self) -> Parts<'_> {
        self.method.parts()
    }

    /// The whole sheet.
    #[must_use]
    pub fn sheet(&self) -> &[u8] {
        &self.method.sheet
    }

    /// The state.
    #[must_use]
    pub fn state(&self) -> State {
        self.state
    }

    /// The locals, then all places of the operand stack, also those above the top.
    #[must_use]
    pub fn frame(&self) -> &[u32] {
        &self.slots
    }

    /// The locals. A long or a double takes two of them, its low word first.
    #[must_use]
    pub fn locals(&self) -> &[u32] {
        &self.slots[..usize::from(self.state.max_locals)]
    }

    /// The places of the operand stack that are in use, the top one last. A long or a double takes
    /// two of them, its low word first.
    #[must_use]
    pub fn stack(&self) -> &[u32] {
        // No step of the library leaves more places in use than the frame has.
        &self.slots[usize::from(self.state.max_locals)..][..self.state.depth as usize]
    }

    /// The offset of the next instruction in the code.
    #[must_use]
    pub fn pc(&self) -> u32 {
        self.state.pc
    }

    /// How many places of the operand stack are in use.
    #[must_use]
    pub fn depth(&self) -> u32 {
        self.state.depth
    }

    /// How many steps the walk is from its start.
    #[must_use]
    pub fn count(&self) -> u64 {
        self.state.count
    }

    /// What the sheet's descriptor says that the method returns.
    #[must_use]
    pub fn return_type(&self) -> ReturnType {
        self.state.return_type
    }

    /// The next instruction as text, for display only.
    #[must_use]
    pub fn next_instruction(&self) -> String {
        mnemonics::instruction(self.parts().code, self.state.pc)
    }
}
