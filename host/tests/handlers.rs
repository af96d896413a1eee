//! Exception tables at the C boundary: which records EX are good, what a load makes of them, and what
//! becomes of a division by 0. Everything lent is compared, as in boundary.rs.
#![forbid(unsafe_code)]

mod common;

use common::memory::{Lent, Memory};
use common::{class, sheet, sheet_with, with_descriptor, writes_nothing, ENOUGH, NOTHING};
use workbook_host::records::{arguments, constant, handler, record, sizes};

/// ICONST_3, ICONST_5, ICONST_0, IDIV, IRETURN; and from 5 on ASTORE_0, ICONST_M1, IRETURN. The
/// division, at 3, has 3 under its operands.
const DIVIDES: [u8; 8] = [0x06, 0x08, 0x03, 0x6C, 0xAC, 0x4B, 0x02, 0xAC];

/// An int at 1, a class at 2 that an ArithmeticException cannot be assigned to, one at 3 that it can,
/// a long at 5 and 6, and another class at 8.
fn pool() -> [Vec<u8>; 5] {
    [
        constant(1, 3, &[0, 0, 0, 1]),
        class(2, 0),
        class(3, 1),
        constant(5, 5, &[0, 0, 0, 7, 0, 0, 0, 1]),
        class(8, 1),
    ]
}

/// How many bytes stand before the handlers.
const BEFORE: usize = 8 + 12 + 4 * 11 + 15;

/// A sheet of three stack places and one local with these records after the pool.
fn dividing(records: &[Vec<u8>]) -> Vec<u8> {
    sheet_with(3, 1, &DIVIDES, &[&pool(), records].concat())
}

#[test]
fn a_load_gives_where_the_handlers_lie() {
    // At their limits: the whole code, its first byte, its last byte; catch type 0, and each class.
    let table = [[0, 8, 7, 0], [0, 1, 0, 2], [7, 8, 7, 3], [0, 8, 0, 8]];
    for many in 0..=table.len() {
        let records: Vec<Vec<u8>> = table[..many].iter().map(|entry| handler(*entry)).collect();
        let mut memory = Memory::new(&dividing(&records), ENOUGH);
        let mut expected = memory.clone();
        expected.slots.part_mut()[..4].fill(0);
        let kinds = [0, 3, 7, 7, 0, 5, 0, 0, 7];
        let words = [0, 1, 0, 1, 0, 1, 7, 0, 1];
        expected.kinds.part_mut().fill(0);
        expected.kinds.part_mut()[..9].copy_from_slice(&kinds);
        expected.words.part_mut().fill(0);
        expected.words.part_mut()[..9].copy_from_slice(&words);
        expected.state.part_mut()[..7].copy_from_slice(&[3, 1, 0, 0, 0, 0, 0]);
        let answer = [12, 8, BEFORE as u32, 12 * many as u32];
        expected.answer.part_mut()[..4].copy_from_slice(&answer);
        assert_eq!(memory.load(), 0, "{many}");
        memory.assert_equals(&expected, &many);
        memory.take_parts();
        assert_eq!(memory.handlers.part(), records.concat());
    }
}

#[test]
fn handlers_follow_the_code_where_there_are_no_constants() {
    for length in [0, 12, 24] {
        let records = vec![handler([0, 1, 0, 0]); length as usize / 12];
        let sheet = sheet_with(0, 0, &[0xB1], &records);
        // With a descriptor, everything lies seven bytes further on.
        for (sheet, code) in [(with_descriptor(b"()V", &sheet), 19), (sheet, 12)] {
            let mut memory = Memory::new(&sheet, ENOUGH);
            assert_eq!(memory.load(), 0);
            assert_eq!(memory.answer.part()[..4], [code, 1, code + 1, length]);
        }
    }
}

/// A load that has to be refused with a number, also where no memory is lent: 26 comes last.
#[track_caller]
fn refuses(sheet: &[u8], number: u32, what: &str) {
    for lengths in [ENOUGH, NOTHING] {
        writes_nothing(&Memory::new(sheet, lengths), Memory::load, number, &what);
    }
}

#[test]
fn a_bad_handler_is_refused() {
    let table = [
        ("an empty range", [3, 3, 5, 0]),
        ("start above end", [4, 3, 5, 0]),
        ("start at the code's end", [8, 9, 5, 0]),
        ("end above the code's length", [0, 9, 5, 0]),
        ("end far above", [0, 65_535, 5, 0]),
        ("handler at the code's end", [0, 8, 8, 0]),
        ("handler far above", [0, 8, 0x0500, 0]),
        ("an int as catch type", [0, 8, 5, 1]),
        ("a gap", [0, 8, 5, 4]),
        ("a long", [0, 8, 5, 5]),
        ("the second index of a long", [0, 8, 5, 6]),
        ("past the last constant", [0, 8, 5, 9]),
        ("past every pool that can be lent", [0, 8, 5, 65_535]),
    ];
    let good = handler([0, 8, 5, 3]);
    for (what, entry) in table {
        refuses(&dividing(&[handler(entry)]), 33, what);
        refuses(&dividing(&[good.clone(), handler(entry)]), 33, what);
    }
    // Good fields in bodies of other lengths.
    for length in (0..=20).filter(|length| *length != 8) {
        let body = [&good[4..], &[0; 12]].concat();
        let cut = record(b"EX", &body[..length]);
        refuses(&dividing(&[cut]), 33, &format!("{length} bytes"));
    }
}

#[test]
fn a_class_has_one_word() {
    for word in [2, 0x100, 0x0100_0000, 0x0100_0001, u32::MAX] {
        let sheet = sheet_with(0, 0, &[0xB1], &[class(1, word)]);
        refuses(&sheet, 25, &format!("{word:X}"));
    }
    let long = constant(1, 7, &[0; 8]);
    refuses(&sheet_with(0, 0, &[0xB1], &[long]), 25, "eight bytes");
    // It uses one index, and no instruction pushes it.
    let classes = [class(1, 1), class(2, 0)];
    let opcodes: [&[u8]; 3] = [&[0x12, 1, 0xB1], &[0x13, 0, 1, 0xB1], &[0x14, 0, 1, 0xB1]];
    for code in opcodes {
        let memory = Memory::loaded(&sheet_with(2, 0, code, &classes), ENOUGH);
        writes_nothing(&memory, Memory::step, 10, &code[0]);
    }
}

#[test]
fn a_load_asks_in_its_order() {
    let (limits, code, none) = (sizes(1, 1), record(b"CD", &[0xB1]), arguments(&[]));
    let (good, bad) = (handler([0, 1, 0, 0]), handler([0, 1, 1, 0]));
    let (int, wrong) = (constant(1, 3, &[0; 4]), class(2, 2));
    let named = handler([0, 1, 0, 1]);
    let class = class(1, 1);
    let table: [(u32, &str, &[&[u8]]); 16] = [
        (21, "cut in EX", &[&limits, &code, &bad[..11]]),
        (22, "Ex", &[&limits, &code, b"Ex\0\x08", &good[4..], &none]),
        (23, "EX first", &[&good, &limits, &code, &none]),
        (23, "EX before CD", &[&limits, &good, &code, &none]),
        (23, "a bad EX before CD", &[&limits, &bad, &code, &none]),
        (23, "KI after EX", &[&limits, &code, &good, &int, &none]),
        (
            23,
            "a wrong KI after EX",
            &[&limits, &code, &good, &wrong, &none],
        ),
        (23, "CD after EX", &[&limits, &code, &good, &code, &none]),
        (23, "EX after AR", &[&limits, &code, &none, &good]),
        (23, "a bad EX after AR", &[&limits, &code, &none, &bad]),
        (23, "EX at the end", &[&limits, &code, &good]),
        // A class that comes too late.
        (
            33,
            "EX before its class",
            &[&limits, &code, &named, &class, &none],
        ),
        // What is wrong in a record comes before what is wrong after it.
        (33, "a bad EX, no AR", &[&limits, &code, &bad]),
        (
            33,
            "a bad EX, a cut AR",
            &[&limits, &code, &bad, &none[..3]],
        ),
        (
            25,
            "a wrong class, a bad EX",
            &[&limits, &code, &wrong, &bad],
        ),
        (
            27,
            "EX, two arguments",
            &[&limits, &code, &good, &arguments(&[1, 2])],
        ),
    ];
    for (number, what, records) in table {
        refuses(&records.concat(), number, what);
    }
}

/// The locals of the methods below, which hold 70 and 71.
const LOCALS: usize = 2;

/// A memory that stands at an offset of a code, with words on its operand stack, one entry in its log,
/// and handlers that no load has seen. Its pool has an int, classes that take an ArithmeticException,
/// at 3 and 5, and others that do not.
fn standing(code: &[u8], pc: u32, stack: &[u32], handlers: &[u8]) -> Memory {
    let mut memory = Memory::loaded(&sheet(6, LOCALS as u16, code, &[70, 71]), ENOUGH);
    memory.kinds = memory.kinds.with(&[7, 3, 7, 7, 7, 7]);
    memory.words = memory.words.with(&[0, 1, 0, 1, 0x101, 1]);
    memory.lend_handlers(handlers);
    memory.slots.part_mut()[LOCALS..][..stack.len()].copy_from_slice(stack);
    memory.state.part_mut()[2..5].copy_from_slice(&[pc, stack.len() as u32, 1]);
    memory
}

/// What a step to a handler leaves.
fn at_handler(memory: &Memory, handler: u32, count: u32) -> Memory {
    let mut expected = memory.clone();
    expected.slots.part_mut()[LOCALS] = 1;
    expected.state.part_mut()[2..6].copy_from_slice(&[handler, 1, count, 0]);
    expected
}

/// Meets a division that has to be caught: by a step, a run, forward and back, and a list.
#[track_caller]
fn caught(memory: &Memory, handler: u32, what: &str) {
    let mut stepped = memory.clone();
    assert_eq!(stepped.step(), 0, "{what}");
    stepped.assert_equals(&at_handler(memory, handler, 0), &what);

    let mut ran = memory.clone();
    let mut expected = at_handler(memory, handler, 0);
    expected.answer.part_mut()[..4].copy_from_slice(&[0, 0, 1, 0]);
    assert_eq!(ran.run(1), 120, "{what}");
    ran.assert_equals(&expected, &what);

    let mut pressed = memory.clone();
    let mut expected = at_handler(memory, handler, 2);
    let (pc, depth) = (memory.state.part()[2], memory.state.part()[3]);
    // Pc, depth, first place, how many, and the old word.
    let entry = [pc, depth, LOCALS as u32, 1, memory.slots.part()[LOCALS]];
    expected.log.part_mut()[10..20].fill(0);
    expected.log.part_mut()[10..15].copy_from_slice(&entry);
    assert_eq!(pressed.forward(), 0, "{what}");
    pressed.assert_equals(&expected, &what);
    let mut backed = memory.clone();
    backed.log = expected.log.clone();
    assert_eq!(pressed.back(), 0, "{what}");
    pressed.assert_equals(&backed, &what);

    let mut listed = memory.clone();
    for memory in [&mut listed, &mut expected] {
        memory.lend_presses(&[1, 0, 1], 10);
    }
    expected.answers.part_mut()[..9].fill(0);
    assert_eq!(listed.presses(), 0, "{what}");
    listed.assert_equals(&expected, &what);
}

/// Meets a division that has to be answered with a number, in the same ways.
#[track_caller]
fn not_caught(memory: &Memory, number: u32, what: &str) {
    writes_nothing(memory, Memory::step, number, &what);
    writes_nothing(memory, Memory::forward, number, &what);

    let (mut ran, mut expected) = (memory.clone(), memory.clone());
    expected.state.part_mut()[4..6].fill(0);
    expected.answer.part_mut()[..4].fill(0);
    assert_eq!(ran.run(5), number, "{what}");
    ran.assert_equals(&expected, &what);

    let mut listed = memory.clone();
    listed.lend_presses(&[1, 1], 7);
    let mut expected = listed.clone();
    expected.answers.part_mut()[..6].copy_from_slice(&[number, 0, 0, number, 0, 0]);
    assert_eq!(listed.presses(), 0, "{what}");
    listed.assert_equals(&expected, &what);
}

/// The whole code to its first byte, whatever is thrown.
fn everything() -> Vec<u8> {
    handler([0, 65_535, 0, 0])
}

#[test]
fn each_division_by_0_is_caught() {
    let table: [(u8, &[u32]); 4] = [
        (0x6C, &[5, 0]),
        (0x70, &[0x8000_0000, 0]),
        (0x6D, &[1, 2, 0, 0]),
        (0x71, &[0, 0, 0, 0]),
    ];
    for (opcode, operands) in table {
        // The places under the operands are popped too. The last byte of a code may throw.
        for under in [&[][..], &[8], &[8, 9]] {
            let stack = [under, operands].concat();
            let what = format!("opcode {opcode} over {}", under.len());
            for code in [&[0xB1, opcode][..], &[0xB1, opcode, 0xB1]] {
                caught(&standing(code, 1, &stack, &everything()), 0, &what);
                not_caught(&standing(code, 1, &stack, &[]), 110, &what);
            }
        }
    }
}

#[test]
fn nothing_else_is_caught() {
    let table: [(u8, &[u32]); 12] = [
        // A dividend of 0, and divisors of which one word is 0.
        (0x6C, &[0, 5]),
        (0x6D, &[1, 2, 1, 0]),
        (0x6D, &[1, 2, 0, 1]),
        (0x71, &[1, 2, 0, 0x8000_0000]),
        // Floats and doubles: 1 by 0, 0 by 0, and remainders.
        (0x6E, &[0x3F80_0000, 0]),
        (0x6E, &[0, 0]),
        (0x6F, &[0, 0x3FF0_0000, 0, 0]),
        (0x72, &[0x3F80_0000, 0]),
        (0x73, &[0, 0x3FF0_0000, 0, 0]),
        // IADD, SWAP and RETURN.
        (0x60, &[5, 0]),
        (0x5F, &[5, 0]),
        (0xB1, &[5, 0]),
    ];
    for (opcode, stack) in table {
        let code = [opcode, 0xB1];
        let (mut with, mut without) = (
            standing(&code, 0, stack, &everything()),
            standing(&code, 0, stack, &[]),
        );
        let number = with.forward();
        assert_eq!(number, without.forward(), "{opcode}");
        assert_eq!(number, if opcode == 0xB1 { 106 } else { 0 }, "{opcode}");
        without.lend_handlers(&everything());
        with.assert_equals(&without, &opcode);
        // An ordinary step has gone on to the next byte.
        let next = u32::from(opcode != 0xB1);
        assert_eq!(with.state.part()[2], next, "{opcode}");
    }
    // What a division pops is asked first.
    not_caught(&standing(&[0x6C], 0, &[0], &everything()), 7, "one int");
    not_caught(&standing(&[0x71], 0, &[0; 3], &everything()), 7, "no long");
}

#[test]
fn the_first_entry_that_covers_and_takes_wins() {
    let table: [(Option<u32>, &[[u16; 4]]); 18] = [
        // Start is included, and end is not.
        (Some(5), &[[3, 4, 5, 0]]),
        (None, &[[0, 3, 5, 0]]),
        (None, &[[4, 8, 5, 0]]),
        (None, &[[3, 3, 5, 0]]),
        (None, &[[4, 3, 5, 0]]),
        // Catch types: the classes at 3 and 5 take it; not an int, other words, or no index at all.
        (Some(7), &[[0, 65_535, 7, 3]]),
        (Some(0), &[[0, 8, 0, 5]]),
        (None, &[[0, 8, 5, 1]]),
        (None, &[[0, 8, 5, 2]]),
        (None, &[[0, 8, 5, 4]]),
        (None, &[[0, 8, 5, 6]]),
        (None, &[[0, 8, 5, 0x0300]]),
        (None, &[[0, 8, 5, 65_535]]),
        // The order is that of the table, and not that of the ranges.
        (Some(6), &[[0, 8, 6, 0], [3, 4, 5, 3]]),
        (Some(5), &[[0, 3, 6, 0], [3, 4, 5, 3]]),
        (Some(5), &[[0, 8, 6, 2], [0, 8, 5, 3]]),
        (
            Some(5),
            &[[4, 8, 9, 0], [0, 8, 9, 6], [0, 8, 5, 0], [0, 8, 7, 0]],
        ),
        (None, &[[0, 3, 5, 0], [4, 8, 5, 0], [0, 8, 5, 2]]),
    ];
    for (at, entries) in table {
        let part: Vec<u8> = entries.iter().flat_map(|entry| handler(*entry)).collect();
        let memory = standing(&DIVIDES, 3, &[3, 5, 0], &part);
        let what = format!("{entries:?}");
        match at {
            Some(at) => caught(&memory, at, &what),
            None => not_caught(&memory, 110, &what),
        }
    }
}

#[test]
fn offsets_have_16_bits() {
    // NOPs, with a division at 0x0203.
    let mut code = vec![0; 65_535];
    code[0x0203] = 0x6C;
    let at = |entry| standing(&code, 0x0203, &[3, 5, 0], &handler(entry));
    caught(&at([0x0203, 0x0204, 65_534, 0]), 65_534, "the last byte");
    caught(&at([0x0105, 65_535, 0x0506, 3]), 0x0506, "another");
    not_caught(&at([0, 0x0203, 0, 0]), 110, "end");
    not_caught(&at([0x0204, 65_535, 0, 0]), 110, "start");
    not_caught(&at([0, 65_535, 65_535, 0]), 11, "the code's end");
}

#[test]
fn marks_lengths_and_a_rest_count_for_nothing() {
    let fields = &handler([0, 8, 5, 0])[4..];
    for head in [[0; 4], [0xFF; 4], *b"AR\0\0"] {
        let part = [&head, fields].concat();
        caught(&standing(&DIVIDES, 3, &[3, 5, 0], &part), 5, "its head");
    }
    let covers = handler([0, 8, 5, 0]);
    let passed = handler([0, 3, 6, 0]);
    for rest in 0..12 {
        let what = format!("a rest of {rest}");
        let short = &covers[..rest];
        for before in [&[][..], &passed] {
            let part = [before, short].concat();
            not_caught(&standing(&DIVIDES, 3, &[3, 5, 0], &part), 110, &what);
        }
        let part = [&passed[..], &covers, short].concat();
        caught(&standing(&DIVIDES, 3, &[3, 5, 0], &part), 5, &what);
    }
    // One that takes it behind many that do not.
    let part = [passed.repeat(20_000), covers].concat();
    caught(
        &standing(&DIVIDES, 3, &[3, 5, 0], &part),
        5,
        "20,001 entries",
    );
}

#[test]
fn a_handler_outside_of_the_code_is_refused() {
    for outside in [8, 9, 0x0500, 65_535] {
        let what = format!("handler {outside}");
        let [first, second] = [[0, 8, outside, 3], [0, 8, 5, 0]].map(handler);
        let memory = standing(&DIVIDES, 3, &[3, 5, 0], &first);
        not_caught(&memory, 11, &what);
        // No later entry is asked, and the handler is asked before the log.
        let part = [first, second].concat();
        let mut memory = standing(&DIVIDES, 3, &[3, 5, 0], &part);
        not_caught(&memory, 11, &what);
        memory.log = memory.log.with(&[0; 19]);
        writes_nothing(&memory, Memory::forward, 11, &what);
    }
}

#[test]
fn a_caught_division_needs_an_entry_of_the_log() {
    let mut memory = standing(&DIVIDES, 3, &[3, 5, 0], &handler([0, 8, 5, 0]));
    memory.log = memory.log.with(&[0; 19]);
    writes_nothing(&memory, Memory::forward, 12, &"19 words");
    // An exception that nothing catches needs none.
    let mut throws = memory.clone();
    throws.lend_handlers(&[]);
    writes_nothing(&throws, Memory::forward, 110, &"no handlers");
    // Nor does a step without history.
    assert_eq!(memory.step(), 0);
}

/// The frame, the offset and the depth of each stage of `DIVIDES`, where its division is caught.
const STAGES: [([u32; 4], u32, u32); 7] = [
    ([0, 0, 0, 0], 0, 0),
    ([0, 3, 0, 0], 1, 1),
    ([0, 3, 5, 0], 2, 2),
    ([0, 3, 5, 0], 3, 3),
    ([0, 1, 5, 0], 5, 1),
    ([1, 1, 5, 0], 6, 0),
    ([1, u32::MAX, 5, 0], 7, 1),
];

/// A memory at a stage, as a walk leaves it that began with this memory and has this log.
fn at_stage(start: &Memory, net: usize, log: &Lent<u32>) -> Memory {
    let (frame, pc, depth) = STAGES[net];
    let mut expected = start.clone();
    expected.slots.part_mut()[..4].copy_from_slice(&frame);
    expected.state.part_mut()[2..5].copy_from_slice(&[pc, depth, net as u32]);
    expected.log = log.clone();
    expected
}

#[test]
fn a_walk_goes_through_its_handler_and_back() {
    let start = Memory::loaded(&dividing(&[handler([2, 4, 5, 3])]), ENOUGH);
    let mut walked = start.clone();
    for net in 1..STAGES.len() {
        assert_eq!(walked.forward(), 0);
        let expected = at_stage(&start, net, &walked.log);
        walked.assert_equals(&expected, &format!("forward to {net}"));
    }
    assert_eq!(walked.forward(), 101);
    assert_eq!(walked.answer.part()[..2], [u32::MAX, 0]);
    walked.answer = start.answer.clone();
    // Back is lent no handlers.
    for net in (0..STAGES.len() - 1).rev() {
        assert_eq!(walked.back(), 0);
        let expected = at_stage(&start, net, &walked.log);
        walked.assert_equals(&expected, &format!("back to {net}"));
    }
    writes_nothing(&walked, Memory::back, 13, &"the start");
}

#[test]
fn a_run_goes_through_a_handler() {
    let start = Memory::loaded(&dividing(&[handler([2, 4, 5, 3])]), ENOUGH);
    let runs = (0..STAGES.len()).map(|net| (net as u64, net, 120, 0));
    let last = STAGES.len() - 1;
    for (budget, net, number, value) in runs.chain([(u64::MAX, last, 101, u32::MAX)]) {
        let mut ran = start.clone();
        let mut expected = at_stage(&start, net, &start.log);
        expected.state.part_mut()[4] = 0;
        expected.answer.part_mut()[..4].copy_from_slice(&[value, 0, net as u32, 0]);
        assert_eq!(ran.run(budget), number, "{budget}");
        ran.assert_equals(&expected, &budget);
    }
}

#[test]
fn a_handler_may_cover_itself() {
    // ICONST_1, ICONST_0, IDIV, again and again: the exception is all that is left under them.
    let mut sheet = sheet_with(3, 0, &[0x04, 0x03, 0x6C], &[handler([0, 3, 0, 0])]);
    let mut memory = Memory::loaded(&sheet, ENOUGH);
    assert_eq!(memory.run(3_000_001), 120);
    assert_eq!(memory.answer.part()[..4], [0, 0, 3_000_001, 0]);
    assert_eq!(memory.state.part()[2..4], [1, 2]);
    assert_eq!(memory.slots.part()[..3], [1, 1, 0]);
    // With two stack places there is no room for the second round.
    sheet[5] = 2;
    let mut memory = Memory::loaded(&sheet, ENOUGH);
    assert_eq!(memory.run(9), 8);
    assert_eq!(memory.answer.part()[..4], [0, 0, 4, 0]);
}
