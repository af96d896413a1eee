//! The kinds of the words in the locals and on the operand stack, by the instructions executed. For
//! showing only: no step depends on anything here.

mod effects;

use crate::{Parts, State};
use bytecode::descriptor::letters;
use effects::{effect, short, throws, Effect, Value};
use effects::{DOUBLE, FLOAT, INT, LONG, NONE, REFERENCE};

/// What a word is.
#[derive(Clone, Copy, Debug, Default, PartialEq, Eq, Hash)]
pub enum Kind {
    /// Not known: no instruction executed says it.
    #[default]
    Unknown,
    /// An int, also for boolean, byte, char and short.
    Int,
    /// A float.
    Float,
    /// The low word of a long; the high word is in the next place.
    LongLow,
    /// The high word of a long.
    LongHigh,
    /// The low word of a double; the high word is in the next place.
    DoubleLow,
    /// The high word of a double.
    DoubleHigh,
    /// A reference.
    Reference,
}

impl Kind {
    fn is_low(self) -> bool {
        matches!(self, Kind::LongLow | Kind::DoubleLow)
    }

    fn is_high(self) -> bool {
        matches!(self, Kind::LongHigh | Kind::DoubleHigh)
    }
}

/// The kinds of the words of a frame: of each local, and of each place of the operand stack in use.
///
/// A low word is followed by its high word, and a high word follows its low word: where one of the two
/// is written or taken away, the other is not known any more.
///
/// ```
/// use workbook_host::kinds::{Kind, Kinds};
/// use workbook_host::{step, Answer, Walk};
///
/// // max_stack 2, max_locals 1; (I)J; ILOAD_0, I2L, LRETURN; one argument.
/// let sheet = b"LM\x00\x04\x00\x02\x00\x01DS\x00\x04(I)JCD\x00\x03\x1A\x85\xADAR\x00\x04\x00\x00\x00\x05";
/// let walk = Walk::open(sheet.to_vec())?;
/// let (mut state, mut frame, mut kinds) =
///     (walk.state(), walk.frame().to_vec(), Kinds::at_start(walk.sheet()));
/// for _ in 0..2 {
///     let before = state;
///     assert_eq!(step(walk.parts(), &mut frame, &mut state), Answer::Granted);
///     kinds.step(walk.parts(), before, state, &frame);
/// }
/// assert_eq!(kinds.locals(), [Kind::Int]);
/// assert_eq!(kinds.stack(), [Kind::LongLow, Kind::LongHigh]);
/// # Ok::<(), workbook_host::Refusal>(())
/// ```
#[derive(Clone, Debug, PartialEq, Eq)]
pub struct Kinds {
    locals: Vec<Kind>,
    stack: Vec<Kind>,
}

impl Kinds {
    /// Of a loaded sheet, before its first step: the arguments by its descriptor, where it has one.
    #[must_use]
    pub fn at_start(sheet: &[u8]) -> Kinds {
        let max_locals = short(sheet, 6);
        let mut locals = descriptor(sheet).map_or_else(Vec::new, parameters);
        locals.resize(max_locals, Kind::Unknown);
        part_low_word(&mut locals);
        Kinds {
            locals,
            stack: vec![],
        }
    }

    /// Of each local.
    #[must_use]
    pub fn locals(&self) -> &[Kind] {
        &self.locals
    }

    /// Of each place of the operand stack in use, the top one last.
    #[must_use]
    pub fn stack(&self) -> &[Kind] {
        &self.stack
    }

    /// Follows a step that was granted: the states before and after it, and the frame before or after
    /// it, because the divisor that is looked at stays in its place.
    pub fn step(&mut self, parts: Parts, before: State, after: State, frame: &[u32]) {
        let depth = |state: State| state.depth.min(state.max_stack.into()) as usize;
        self.stack.resize(depth(before), Kind::Unknown);
        if throws(parts.code, before, frame) {
            self.push(REFERENCE, 1);
        } else {
            match effect(parts, before.pc as usize) {
                Effect::Push(value) => self.push(value, depth(after)),
                Effect::Store(local, value) => {
                    self.push(NONE, depth(after));
                    self.store(local, value);
                }
                Effect::Move(pops, from) => self.shuffle(pops, from),
            }
        }
        self.stack.resize(depth(after), Kind::Unknown);
    }

    /// A value on top of a stack that has a depth with it.
    fn push(&mut self, value: Value, depth: usize) {
        let below = depth.saturating_sub(value.len());
        self.stack.resize(below, Kind::Unknown);
        part_low_word(&mut self.stack);
        self.stack.extend(value);
    }

    fn store(&mut self, local: usize, value: Value) {
        let after = local + value.len();
        let Some(stored) = self.locals.get_mut(local..after) else {
            return;
        };
        stored.copy_from_slice(value);
        part_low_word(&mut self.locals[..local]);
        if let Some(next) = self.locals.get_mut(after).filter(|next| next.is_high()) {
            *next = Kind::Unknown;
        }
    }

    /// Words that move. Both of a value stay known where they lie side by side again.
    fn shuffle(&mut self, pops: usize, from: &[usize]) {
        let Some(below) = self.stack.len().checked_sub(pops) else {
            return self.stack.clear();
        };
        let popped = self.stack.split_off(below);
        // The first place popped may be the high word of a value that begins below it.
        if from[0] != 0 {
            part_low_word(&mut self.stack);
        }
        for (place, &source) in from.iter().enumerate() {
            let kind = popped[source];
            let together = if kind.is_low() {
                from.get(place + 1) == Some(&(source + 1))
            } else if kind.is_high() && source == 0 {
                place == 0
            } else if kind.is_high() {
                place > 0 && from[place - 1] + 1 == source
            } else {
                true
            };
            self.stack.push(if together { kind } else { Kind::Unknown });
        }
    }
}

/// A low word at the end has no high word after it.
fn part_low_word(kinds: &mut [Kind]) {
    if let Some(last) = kinds.last_mut().filter(|last| last.is_low()) {
        *last = Kind::Unknown;
    }
}

/// The descriptor that a loaded sheet has.
#[must_use]
pub fn descriptor(sheet: &[u8]) -> Option<&[u8]> {
    let body = sheet.get(8..)?.strip_prefix(b"DS")?;
    let (_, body) = body.split_at_checked(2)?;
    body.get(..short(sheet, 10))
}

/// The kinds of a descriptor's parameters.
fn parameters(descriptor: &[u8]) -> Vec<Kind> {
    let letters = letters(descriptor).unwrap_or_default();
    let kinds = letters.into_iter().flat_map(|letter| match letter {
        b'J' => LONG,
        b'D' => DOUBLE,
        b'F' => FLOAT,
        b'L' => REFERENCE,
        _ => INT,
    });
    kinds.copied().collect()
}
