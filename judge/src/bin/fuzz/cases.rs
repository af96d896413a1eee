//! Hostile memory: lengths, states and logs that are mostly nearly right.

use super::boundary;
use super::codes::{code, long_code, shape, start};
use super::handlers::{self, Around};
use super::memory::{Function, Lent, Memory};
use super::random::Random;
use super::sheets::sheet;
use judge::shapes::places;
use judge::sheet::read;

/// A length that is mostly what is needed or a little more.
fn reaching(random: &mut Random, needed: usize) -> usize {
    match random.below(64) {
        0 | 1 => random.around(needed),
        2 => random.below(needed + 1),
        3..=24 => needed,
        _ => needed + random.below(20),
    }
}

/// A length of a state or an answer, seldom too short.
fn short_part(random: &mut Random, needed: usize) -> usize {
    match random.below(64) {
        0 => random.below(needed + 3),
        1 => needed - 1,
        2..=9 => needed + random.below(3),
        _ => needed,
    }
}

/// The length of a pool, mostly the same for kinds and words.
fn pool(random: &mut Random, needed: usize, large: bool) -> (usize, usize) {
    let kinds = if large && random.once_in(2) {
        random.pick(&[65_535, 65_536, 65_536, 65_537])
    } else {
        reaching(random, needed)
    };
    match random.below(64) {
        0 => (kinds, random.around(kinds)),
        1 => (kinds, random.below(9)),
        _ => (kinds, kinds),
    }
}

/// A memory of any words, with the lengths that a frame and a pool need.
fn lent(random: &mut Random, sheet: &[u8], needs: [usize; 2], large: bool, bare: bool) -> Memory {
    let (kinds, words) = pool(random, needs[1], large);
    let slots = reaching(random, needs[0]);
    let entries = match random.below(8) {
        _ if large && random.once_in(8) => 70_000,
        0 => random.below(3),
        1 => random.below(40),
        _ => random.below(12),
    };
    let log = random.around(10 * entries);
    let (state, answer) = (short_part(random, 7), short_part(random, 4));
    let mut part = |length: usize| {
        let words = random.words(length);
        Lent::guarded(&words, random, bare)
    };
    let (words, slots, log) = (part(words), part(slots), part(log));
    let (state, answer, answers) = (part(state), part(answer), part(0));
    let kinds = random.bytes(kinds);
    let handlers = random.below(15);
    let handlers = random.bytes(handlers);
    Memory {
        sheet: Lent::guarded(sheet, random, bare),
        code: 0..sheet.len(),
        kinds: Lent::guarded(&kinds, random, bare),
        words,
        handlers: Lent::guarded(&handlers, random, bare),
        slots,
        log,
        state,
        answer,
        presses: Lent::guarded(&[], random, bare),
        answers,
        budget: 0,
    }
}

/// A memory for a load.
pub fn to_load(random: &mut Random, bare: bool) -> Memory {
    let large = random.once_in(400);
    let sheet = sheet(random, large);
    around_sheet(random, &sheet, large, bare)
}

/// Other memory around the same sheet.
pub fn to_load_again(random: &mut Random, memory: &Memory) -> Memory {
    let large = random.once_in(400);
    around_sheet(random, memory.sheet.part(), large, memory.sheet.is_bare())
}

fn around_sheet(random: &mut Random, sheet: &[u8], large: bool, bare: bool) -> Memory {
    let needs = match read(sheet) {
        Ok(read) => [read.max_stack + read.max_locals, read.reach],
        Err(_) => [random.below(20), random.below(9)],
    };
    lent(random, sheet, needs, large, bare)
}

/// A memory that no load made, with a code and a state that mostly suits it.
pub fn standing(random: &mut Random, bare: bool) -> Memory {
    let large = random.once_in(400);
    let mut shape = shape(random);
    if large && random.once_in(2) {
        shape.max_stack = random.pick(&[4, 65_535, 65_536]);
        shape.max_locals = random.pick(&[4, 65_535, 65_536]);
    }
    let code = if large && random.once_in(2) {
        long_code(random, &shape)
    } else {
        code(random, &shape)
    };
    let frame = shape.max_stack + shape.max_locals;
    let needs = [frame, shape.kinds.len()];
    let mut memory = lent(random, &code, needs, large, bare);
    for (kind, from) in memory.kinds.part_mut().iter_mut().zip(&shape.kinds) {
        *kind = *from;
    }
    set_classes(random, &mut memory);
    let sizes = [shape.max_stack as u32, shape.max_locals as u32];
    for (word, size) in memory.state.part_mut().iter_mut().zip(sizes) {
        *word = size;
    }
    move_to(random, &mut memory);
    set_count(random, &mut memory);
    set_return_type(random, &mut memory);
    if shape.throws || random.once_in(8) {
        set_handlers(random, &mut memory, large);
    }
    memory
}

/// Words for the classes of a pool, mostly those that a load gives, and the same for some others, which are none.
fn set_classes(random: &mut Random, memory: &mut Memory) {
    let kinds = memory.kinds.part().iter();
    for (word, kind) in memory.words.part_mut().iter_mut().zip(kinds) {
        if *kind == 7 || random.once_in(4) {
            let any = random.word();
            *word = random.pick(&[1, 1, 1, 1, 0, 0, 2, any]);
        }
    }
}

/// Other handlers, mostly some that cover where the state stands.
fn set_handlers(random: &mut Random, memory: &mut Memory, large: bool) {
    let kinds = memory.kinds.part();
    let classes = (0..kinds.len()).filter(|index| kinds[*index] == 7);
    let around = Around {
        code: memory.code(),
        pool: kinds.len(),
        classes: classes.collect(),
    };
    let offset = memory.state_word(2) as usize;
    let part = handlers::part(random, &around, offset, large);
    memory.handlers = Lent::guarded(&part, random, memory.handlers.is_bare());
}

fn set(memory: &mut Memory, place: usize, word: u32) {
    if let Some(found) = memory.state.part_mut().get_mut(place) {
        *found = word;
    }
}

/// Another pc and another depth, mostly ones that suit.
fn move_to(random: &mut Random, memory: &mut Memory) {
    let length = memory.code.len();
    let pc = match random.below(32) {
        0 => random.word(),
        1 => random.around(length) as u32,
        2..=4 => length.saturating_sub(1 + random.below(12)) as u32,
        5 | 6 => random.below(length) as u32,
        _ => start(random, memory.code()) as u32,
    };
    let max_stack = memory.state_word(0) as usize;
    let depth = match random.below(48) {
        0 => random.word(),
        1 => random.around(max_stack) as u32,
        2..=16 => max_stack.saturating_sub(random.below(3)) as u32,
        _ => random.below(max_stack + 1) as u32,
    };
    set(memory, 2, pc);
    set(memory, 3, depth);
}

/// Another count, and an entry at it that can mostly be taken back.
fn set_count(random: &mut Random, memory: &mut Memory) {
    let count = random.count(memory.log.len());
    set(memory, 4, count as u32);
    set(memory, 5, (count >> 32) as u32);
    let entry = [
        random.below(memory.code.len()),
        random.below(memory.state_word(0) as usize + 1),
        random.below(memory.frame()),
        random.pick(&[0, 1, 1, 2, 2, 3, 4, 5, 6, 7]),
    ];
    let start = (count as usize).wrapping_sub(1).wrapping_mul(10);
    let end = start.saturating_add(4);
    if let Some(words) = memory.log.part_mut().get_mut(start..end) {
        for (word, number) in words.iter_mut().zip(entry) {
            *word = number as u32;
            if random.once_in(32) {
                *word = random.word();
            }
        }
    }
}

/// Another return type, seldom a number that is none.
fn set_return_type(random: &mut Random, memory: &mut Memory) {
    let letter = u32::from(random.pick(b"BCDFIJLSVZ"));
    let word = random.word();
    let number = match random.below(16) {
        0 => 0,
        1 => word,
        // A small letter, another byte and another bit.
        2 => random.pick(&[
            letter | 0x20,
            letter << 8,
            letter << 24,
            letter | 0x100,
            letter ^ 0x80,
        ]),
        3 => u32::from(b'['),
        4..=8 => u32::from(random.pick(b"BCSZ")),
        _ => letter,
    };
    set(memory, 6, number);
}

/// Puts an instruction that works on the stack, or a return, where the state stands, with operands of its kind. A division
/// is often one by 0, with handlers of its own.
pub fn instruct(random: &mut Random, memory: &mut Memory) {
    let opcode = match random.below(8) {
        0 => random.pick(&[172, 172, 172, 173, 174, 175, 176, 177]),
        1 | 2 => random.pick(&[108, 109, 112, 113]),
        _ => 87 + random.below(66) as u8,
    };
    let (pops, pushes) = places(opcode).unwrap_or((0, 0));
    let [max_stack, max_locals] = [0, 1].map(|place| memory.state_word(place) as usize);
    let Some(room) = max_stack.checked_sub(pops.max(pushes)) else {
        return;
    };
    let depth = pops + random.below(room + 1);
    let base = max_locals + depth - pops;
    let pc = random.below(memory.code.len());
    let code = memory.code.clone();
    let (Some(byte), Some(popped)) = (
        memory.sheet.part_mut()[code].get_mut(pc),
        memory.slots.part_mut().get_mut(base..base + pops),
    ) else {
        return;
    };
    *byte = opcode;
    let long = match opcode {
        96..=131 => opcode % 2 == 1,
        _ => matches!(opcode, 136..=138 | 142..=144 | 148 | 151 | 152 | 173 | 175),
    };
    popped.copy_from_slice(&operands(random, pops, long));
    let division = matches!(opcode, 108 | 109 | 112 | 113) && !random.once_in(4);
    if division {
        popped[pops / 2..].fill(0);
    }
    set(memory, 2, pc as u32);
    set(memory, 3, depth as u32);
    if division && !random.once_in(4) {
        set_handlers(random, memory, false);
    }
}

/// The words of ints and floats, or of longs and doubles, some of them twice.
fn operands(random: &mut Random, pops: usize, long: bool) -> Vec<u32> {
    let mut operands = vec![];
    while operands.len() < pops {
        let (last, size) = (operands.len(), 1 + usize::from(long));
        if last >= size && random.once_in(8) {
            operands.extend_from_within(last - size..);
        } else if long && operands.len() + 2 <= pops {
            let pair = random.pair();
            operands.extend([pair as u32, (pair >> 32) as u32]);
        } else {
            operands.push(random.word());
        }
    }
    operands.truncate(pops);
    operands
}

/// Changes something between two calls.
pub fn disturb(random: &mut Random, memory: &mut Memory) {
    let word = random.word();
    match random.below(30) {
        0..=9 => move_to(random, memory),
        10..=13 => set_count(random, memory),
        14 if random.once_in(2) => set(memory, random.below(9), word),
        14..=16 => poke(random, memory.slots.part_mut(), word),
        17 => poke(random, memory.log.part_mut(), word),
        18 => poke(random, memory.words.part_mut(), word),
        19 => poke(random, memory.kinds.part_mut(), word as u8),
        20 => poke(random, memory.sheet.part_mut(), word as u8),
        21 => {
            let length = reaching(random, memory.frame().min(140_000));
            memory.slots.resize(length, random);
        }
        22 => {
            let length = random.around(10 * (memory.count().min(40) as usize));
            memory.log.resize(length + random.pick(&[0, 10]), random);
        }
        23 | 24 => set_return_type(random, memory),
        25 => set_handlers(random, memory, false),
        26 => poke(random, memory.handlers.part_mut(), word as u8),
        27 => {
            let length = random.around(memory.handlers.len());
            memory.handlers.resize(length, random);
        }
        28 => set_classes(random, memory),
        _ => {
            let (state, answer) = (short_part(random, 7), short_part(random, 4));
            memory.state.resize(state, random);
            memory.answer.resize(answer, random);
        }
    }
}

fn poke<T>(random: &mut Random, part: &mut [T], element: T) {
    let place = random.below(part.len());
    if let Some(found) = part.get_mut(place) {
        *found = element;
    }
}

/// Lends presses, with about as much room for their answers as they need.
pub fn lend_presses(random: &mut Random, memory: &mut Memory) {
    let many = match random.below(32) {
        0 => 0,
        1 => random.below(200),
        2 if random.once_in(256) => random.below(70_000),
        _ => random.below(14),
    };
    let press = |_| match random.below(8) {
        0 => random.next() as u8,
        1..=3 => 0,
        _ => 1,
    };
    let presses: Vec<u8> = (0..many).map(press).collect();
    let room = match random.below(24) {
        0 => random.below(3 * many + 1),
        1..=4 => random.around(3 * many),
        _ => 3 * many + random.below(5),
    };
    memory.presses = Lent::guarded(&presses, random, memory.presses.is_bare());
    memory.answers.resize(room, random);
}

/// A budget, mostly small. One that no test could wait for is given only where the run ends before.
pub fn set_budget(random: &mut Random, memory: &mut Memory) {
    memory.budget = match random.below(32) {
        0 => 5_000,
        1 | 2 => random.below(1_000) as u64,
        3..=8 => random.below(100) as u64,
        9..=10 => 0,
        11..=14 => 1,
        _ => random.below(16) as u64,
    };
    if random.once_in(8) {
        let mut copy = memory.clone();
        copy.budget = 2_000;
        if boundary::call(Function::Run, &mut copy) != 120 {
            let any = random.next();
            memory.budget =
                random.pick(&[u64::MAX, 1 << 63, 1 << 32, u32::MAX.into(), any | 1 << 40]);
        }
    }
}
