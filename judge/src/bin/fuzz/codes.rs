//! Codes: instructions with operands that are mostly plausible.

use super::random::Random;
use bytecode::instructions::{of_opcode, switch_operands, widened, Operands};
use judge::shapes::places;

/// Core opcodes, those with operands more often than their number.
const WITH_OPERANDS: [u8; 32] = [
    16, 17, 18, 19, 20, 21, 22, 23, 24, 25, 54, 55, 56, 57, 58, 132, 153, 155, 158, 159, 162, 165,
    167, 170, 171, 170, 171, 196, 196, 198, 199, 200,
];

/// Bytes of the block at the end of a code that goes round, which is made to be a handler.
pub const HANDLER: usize = 4;

/// Sizes that a method has, the kinds of its pool, and whether it is made to throw.
pub struct Shape {
    pub max_stack: usize,
    pub max_locals: usize,
    pub kinds: Vec<u8>,
    pub throws: bool,
}

/// A core opcode.
fn opcode(random: &mut Random) -> u8 {
    loop {
        let opcode = random.below(201) as u8;
        if places(opcode).is_some() {
            return opcode;
        }
    }
}

/// An index of a local, mostly one that is there.
fn local(random: &mut Random, shape: &Shape) -> usize {
    match random.below(16) {
        0 => random.around(shape.max_locals),
        1 => random.word() as usize,
        _ => random.below(shape.max_locals),
    }
}

/// An index of a constant, mostly one of the right kind.
fn constant(random: &mut Random, shape: &Shape, long: bool) -> usize {
    let suits = |kind: u8| matches!((long, kind), (false, 3 | 4) | (true, 5 | 6));
    let start = random.below(shape.kinds.len());
    let found = (start..shape.kinds.len()).find(|&index| suits(shape.kinds[index]));
    match (random.below(16), found) {
        (0, _) => random.around(shape.kinds.len()),
        (1, _) => random.word() as usize,
        (_, found) => found.unwrap_or(start),
    }
}

/// A distance from an offset to a place in a code that will be about so long.
fn distance(random: &mut Random, at: usize, length: usize) -> i32 {
    match random.below(10) {
        0 => random.word() as i32,
        1 => random.pick(&[-1, 0, 1, 2, 3, 4, 5]),
        _ => random.below(length + 1) as i32 - at as i32,
    }
}

/// Writes an instruction with operands that are mostly plausible.
fn instruction(random: &mut Random, code: &mut Vec<u8>, opcode: u8, shape: &Shape, length: usize) {
    let at = code.len();
    code.push(opcode);
    let Some(entry) = of_opcode(opcode) else {
        return;
    };
    match entry.operands {
        Operands::Byte => code.push(random.word() as u8),
        Operands::Short => code.extend((random.word() as u16).to_be_bytes()),
        Operands::Index if opcode == 18 => code.push(constant(random, shape, false) as u8),
        Operands::LongIndex => {
            let index = constant(random, shape, opcode == 20);
            code.extend((index as u16).to_be_bytes());
        }
        Operands::Index => code.push(local(random, shape) as u8),
        Operands::Increment => code.extend([local(random, shape) as u8, random.word() as u8]),
        Operands::Branch => code.extend((distance(random, at, length) as i16).to_be_bytes()),
        Operands::LongBranch => code.extend(distance(random, at, length).to_be_bytes()),
        Operands::TableSwitch | Operands::LookupSwitch => switch(random, code, opcode, length),
        Operands::Wide => wide(random, code, shape),
        Operands::None | Operands::LongIncrement => {}
    }
}

/// Writes what `wide` widens, seldom something that it cannot.
fn wide(random: &mut Random, code: &mut Vec<u8>, shape: &Shape) {
    let opcode = match random.below(10) {
        0 => random.next() as u8,
        1..=3 => 132,
        _ => random.pick(&WITH_OPERANDS[5..15]),
    };
    code.push(opcode);
    code.extend((local(random, shape) as u16).to_be_bytes());
    if opcode == 132 {
        code.extend((random.word() as u16).to_be_bytes());
    }
}

/// Writes the operands of a switch, sometimes wrong in one way.
fn switch(random: &mut Random, code: &mut Vec<u8>, opcode: u8, length: usize) {
    let at = code.len() - 1;
    let padding = 3 - at % 4;
    let wrong = random.once_in(16);
    let padding = if wrong { random.below(4) } else { padding };
    code.extend(random.bytes(padding));
    let mut number = |number: i32| code.extend(number.to_be_bytes());
    number(distance(random, at, length));
    let entries = random.below(5);
    let low = match random.below(6) {
        0 => random.pick(&[i32::MIN, i32::MAX - entries as i32, -1]),
        _ => random.below(6) as i32 - 3,
    };
    let huge = [i32::MAX, i32::MIN, 0x2000_0000, 0x4000_0000, -1];
    if opcode == 170 {
        let high = match random.below(12) {
            0 => random.pick(&huge),
            1 => low.wrapping_sub(1),
            _ => low.wrapping_add(entries as i32),
        };
        number(low);
        number(high);
        for _ in 0..=entries {
            number(distance(random, at, length));
        }
        return;
    }
    number(match random.below(12) {
        0 => random.pick(&huge),
        _ => entries as i32,
    });
    let mut key = low;
    for _ in 0..entries {
        number(key);
        number(distance(random, at, length));
        let rise = random.pick(&[1, 1, 1, 2, 7, 1 << 30, 0]);
        key = key.wrapping_add(rise);
    }
}

/// A code that goes round: each instruction finds what it pops and has room for what it pushes, and
/// jumps go back to where the depth was the same.
fn round(random: &mut Random, shape: &Shape, length: usize) -> Vec<u8> {
    let (mut code, mut depth) = (vec![], 0);
    let mut starts = vec![(0, 0)];
    while code.len() < length {
        if shape.throws && (1..shape.max_stack).contains(&depth) && random.once_in(16) {
            // A division by 0.
            code.extend([3, random.pick(&[108, 112])]);
        }
        let opcode = opcode(random);
        let (pops, pushes) = places(opcode).unwrap_or((0, 0));
        let leaves = matches!(opcode, 108 | 109 | 112 | 113 | 170..=177 | 196 | 200);
        let short = matches!(opcode, 26..=45 | 59..=78) && shape.max_locals < 5;
        let fits = pops <= depth && depth - pops + pushes <= shape.max_stack;
        if !fits || short || (leaves && !random.once_in(8)) {
            continue;
        }
        let after = depth - pops + pushes;
        if matches!(opcode, 153..=167 | 198 | 199) {
            let same = starts.iter().rev().find(|start| start.1 == after);
            let Some(&(start, _)) = same else { continue };
            let (at, next) = (code.len(), code.len() + 3);
            let target = if random.once_in(2) { start } else { next };
            code.push(opcode);
            code.extend((target as i32 as i16 - at as i16).to_be_bytes());
        } else {
            instruction(random, &mut code, opcode, shape, length);
        }
        depth = after;
        starts.push((code.len(), depth));
    }
    code.extend(vec![87; depth]);
    go_back(&mut code);
    code.push(87);
    go_back(&mut code);
    code
}

/// Writes a jump to the start.
fn go_back(code: &mut Vec<u8>) {
    let back = -(code.len() as i32) as i16;
    code.push(167);
    code.extend(back.to_be_bytes());
}

/// A code of some instructions or of any bytes.
pub fn code(random: &mut Random, shape: &Shape) -> Vec<u8> {
    let length = random.below(40);
    match random.below(16) {
        0 => random.bytes(length),
        1 => {
            let length = random.below(2);
            random.bytes(length)
        }
        2..=6 => {
            let length = 10 + random.below(80);
            round(random, shape, length)
        }
        _ => {
            let mut code = vec![];
            while code.len() <= length {
                let opcode = match random.below(16) {
                    0 => random.next() as u8,
                    1..=6 => random.pick(&WITH_OPERANDS),
                    _ => opcode(random),
                };
                instruction(random, &mut code, opcode, shape, length);
            }
            if random.once_in(4) {
                code.truncate(1 + random.below(code.len()));
            }
            code
        }
    }
}

/// A code of 65,535 bytes or about so many, with instructions at both ends.
pub fn long_code(random: &mut Random, shape: &Shape) -> Vec<u8> {
    let length = random.pick(&[65_534, 65_535, 65_535, 65_535, 65_536, 65_537]);
    let mut whole = code(random, shape);
    let end = code(random, shape);
    let fill = random.pick(&[0, 0, 3, 96, 170, 171, 200]);
    whole.resize(length - end.len(), fill);
    whole.extend(end);
    whole
}

/// Sizes and kinds of a small method.
pub fn shape(random: &mut Random) -> Shape {
    let pool = random.below(9);
    let mut kinds = vec![0; pool];
    for kind in &mut kinds {
        *kind = match random.below(12) {
            0 if random.once_in(4) => random.next() as u8,
            _ => random.pick(&[3, 4, 5, 6, 7]),
        };
    }
    Shape {
        throws: random.once_in(2),
        max_stack: random.below(20),
        max_locals: random.below(9),
        kinds,
    }
}

/// The start of one of the first instructions.
pub fn start(random: &mut Random, code: &[u8]) -> usize {
    let (mut at, many) = (0, random.below(24));
    for _ in 0..many {
        let next = at + length(code, at);
        if next >= code.len() {
            break;
        }
        at = next;
    }
    at
}

/// How long an instruction is, about: a switch that is wrong may have any length.
fn length(code: &[u8], at: usize) -> usize {
    let word = |from: usize| {
        let bytes = code.get(from..).and_then(|rest| rest.first_chunk());
        bytes.map_or(0, |bytes| i32::from_be_bytes(*bytes))
    };
    let Some(&opcode) = code.get(at) else {
        return 1;
    };
    let operands = switch_operands(at);
    match of_opcode(opcode).map(|entry| entry.operands) {
        None => 1,
        Some(Operands::TableSwitch) => {
            let entries = word(operands + 8).wrapping_sub(word(operands + 4));
            operands - at + 16 + 4 * entries.clamp(0, 9) as usize
        }
        Some(Operands::LookupSwitch) => {
            operands - at + 8 + 8 * word(operands + 4).clamp(0, 9) as usize
        }
        Some(Operands::Wide) => {
            let second = code.get(at + 1).and_then(|&opcode| widened(opcode));
            2 + second.unwrap_or(Operands::LongIndex).length().unwrap_or(0)
        }
        Some(fixed) => 1 + fixed.length().unwrap_or(0),
    }
}
