//! What each instruction does to the kinds of the words, by its bytes.

use super::Kind;
use crate::{Parts, State};

/// The kinds of the words of one value.
pub(super) type Value = &'static [Kind];

pub(super) const NONE: Value = &[];
const UNKNOWN: Value = &[Kind::Unknown];
pub(super) const INT: Value = &[Kind::Int];
pub(super) const LONG: Value = &[Kind::LongLow, Kind::LongHigh];
pub(super) const FLOAT: Value = &[Kind::Float];
pub(super) const DOUBLE: Value = &[Kind::DoubleLow, Kind::DoubleHigh];
pub(super) const REFERENCE: Value = &[Kind::Reference];

/// In the order in which the instructions of a group stand: `iload lload fload dload aload`.
const TYPES: [Value; 5] = [INT, LONG, FLOAT, DOUBLE, REFERENCE];

/// From `i2l` to `i2s`.
#[rustfmt::skip]
const CONVERTED: [Value; 15] = [
    LONG, FLOAT, DOUBLE, INT, FLOAT, DOUBLE, INT, LONG, DOUBLE, INT, LONG, FLOAT, INT, INT, INT,
];

/// From `dup` to `swap`: how many places each pops, and which of them it pushes, the deepest first.
const MOVES: [(usize, &[usize]); 7] = [
    (1, &[0, 0]),
    (2, &[1, 0, 1]),
    (3, &[2, 0, 1, 2]),
    (2, &[0, 1, 0, 1]),
    (3, &[1, 2, 0, 1, 2]),
    (4, &[2, 3, 0, 1, 2, 3]),
    (2, &[1, 0]),
];

/// What an instruction does to the kinds.
pub(super) enum Effect {
    /// Pushes a value, or nothing, after what it pops.
    Push(Value),
    /// Writes a local.
    Store(usize, Value),
    /// Pops so many places, and pushes these of them.
    Move(usize, &'static [usize]),
}

/// What the instruction at an offset does.
pub(super) fn effect(parts: Parts, pc: usize) -> Effect {
    let code = parts.code;
    let opcode = byte(code, pc);
    let (group, operand) = (|first: usize| opcode - first, byte(code, pc + 1));
    match opcode {
        1 => Effect::Push(REFERENCE),
        2..=8 | 16 | 17 => Effect::Push(INT),
        9 | 10 => Effect::Push(LONG),
        11..=13 => Effect::Push(FLOAT),
        14 | 15 => Effect::Push(DOUBLE),
        18 => Effect::Push(constant(parts.kinds, operand)),
        19 | 20 => Effect::Push(constant(parts.kinds, short(code, pc + 1))),
        21..=25 => Effect::Push(TYPES[group(21)]),
        26..=45 => Effect::Push(TYPES[group(26) / 4]),
        54..=58 => Effect::Store(operand, TYPES[group(54)]),
        59..=78 => Effect::Store(group(59) % 4, TYPES[group(59) / 4]),
        89..=95 => Effect::Move(MOVES[group(89)].0, MOVES[group(89)].1),
        96..=119 => Effect::Push(TYPES[group(96) % 4]),
        // Shifts and bits: of an int and of a long by turns.
        120..=131 => Effect::Push(TYPES[group(120) % 2]),
        132 => Effect::Store(operand, INT),
        133..=147 => Effect::Push(CONVERTED[group(133)]),
        148..=152 => Effect::Push(INT),
        196 => widened(operand, short(code, pc + 2)),
        _ => Effect::Push(NONE),
    }
}

/// An instruction after `wide`.
fn widened(opcode: usize, local: usize) -> Effect {
    match opcode {
        21..=25 => Effect::Push(TYPES[opcode - 21]),
        54..=58 => Effect::Store(local, TYPES[opcode - 54]),
        132 => Effect::Store(local, INT),
        _ => Effect::Push(NONE),
    }
}

/// A constant's tag says what it is.
fn constant(tags: &[u8], index: usize) -> Value {
    match tags.get(index) {
        Some(3) => INT,
        Some(4) => FLOAT,
        Some(5) => LONG,
        Some(6) => DOUBLE,
        _ => UNKNOWN,
    }
}

/// Whether the instruction divides by 0, so that a granted step caught the exception.
pub(super) fn throws(code: &[u8], state: State, frame: &[u32]) -> bool {
    let places = match byte(code, state.pc as usize) {
        108 | 112 => 1,
        109 | 113 => 2,
        _ => return false,
    };
    let end = usize::from(state.max_locals) + state.depth as usize;
    let divisor = end
        .checked_sub(places)
        .and_then(|start| frame.get(start..end));
    divisor.is_some_and(|words| words.iter().all(|word| *word == 0))
}

/// A byte of a code, and 0 outside of it.
pub(super) fn byte(code: &[u8], at: usize) -> usize {
    code.get(at).copied().unwrap_or(0).into()
}

/// Two bytes of a code.
pub(super) fn short(code: &[u8], at: usize) -> usize {
    byte(code, at) << 8 | byte(code, at + 1)
}
