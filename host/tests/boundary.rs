//! The functions at the C boundary: every number that comes back for wrong lengths and wrong words,
//! and every word that is written or stays. A copy of all lent parts, with guards around each, is
//! changed by hand to what a call has to leave, and compared as a whole.
#![forbid(unsafe_code)]

mod common;

use common::memory::{Lent, Memory};
use common::{class, sheet, sheet_with, writes_nothing};
use common::{Lengths, ANSWER_WORDS, ENOUGH, NOTHING, STATE_WORDS};
use workbook_host::records::{arguments, constant, handler, record, sizes};

/// ICONST_3, ICONST_4, IADD, IRETURN.
const ADDS: [u8; 4] = [0x06, 0x07, 0x60, 0xAC];

/// Lengths of state and answer of which at least one is too short.
fn too_short() -> impl Iterator<Item = (usize, usize)> {
    let states = 0..=ENOUGH.state;
    let all = states.flat_map(|state| (0..=ENOUGH.answer).map(move |answer| (state, answer)));
    all.filter(|&(state, answer)| state < STATE_WORDS || answer < ANSWER_WORDS)
}

/// Sheets that are refused for what stands in them, with their numbers.
fn bad_sheets() -> Vec<(u32, Vec<u8>)> {
    let int = 7u32.to_be_bytes();
    let long = 7u64.to_be_bytes();
    let code = record(b"CD", &ADDS);
    let with = |records: &[Vec<u8>]| sheet_with(2, 0, &ADDS, records);
    vec![
        (21, sizes(2, 0)[..3].to_vec()),
        (21, sizes(2, 0)[..7].to_vec()),
        (21, [sizes(2, 0), b"CD\xFF\xFF".to_vec()].concat()),
        (22, [sizes(2, 0), record(b"cd", &ADDS)].concat()),
        (23, vec![]),
        (23, code.clone()),
        (23, [sizes(2, 0), code.clone()].concat()),
        (
            23,
            [sizes(2, 0), code.clone(), arguments(&[]), arguments(&[])].concat(),
        ),
        (24, record(b"LM", &[0; 5])),
        (24, [sizes(2, 0), record(b"CD", &[])].concat()),
        (24, with(&[record(b"KI", &[0; 8])])),
        (
            24,
            [sizes(2, 9), code.clone(), record(b"AR", &[0; 6])].concat(),
        ),
        (25, with(&[constant(1, 5, &int)])),
        (25, with(&[constant(1, 4, &long)])),
        (25, with(&[constant(0, 3, &int)])),
        (25, with(&[constant(1, 5, &long), constant(2, 3, &int)])),
        (25, with(&[constant(65_535, 6, &long)])),
        (25, with(&[class(1, 2)])),
        (33, with(&[handler([0, 5, 0, 0])])),
        (27, sheet(2, 1, &ADDS, &[1, 2])),
    ]
}

/// A sheet with an int at 1 and a double at 4, and two arguments.
fn good_sheet() -> Vec<u8> {
    let constants = [
        constant(1, 3, &0x0102_0304_u32.to_be_bytes()),
        constant(4, 6, &0x1112_1314_2122_2324_u64.to_be_bytes()),
    ];
    let rest = [
        record(b"CD", &ADDS),
        constants.concat(),
        arguments(&[77, 88]),
    ];
    [sizes(2, 3), rest.concat()].concat()
}

#[test]
fn an_accepted_load_writes_what_it_says() {
    let mut memory = Memory::new(&good_sheet(), ENOUGH);
    let mut expected = memory.clone();
    assert_eq!(memory.load(), 0);
    expected.slots.part_mut()[..5].copy_from_slice(&[77, 88, 0, 0, 0]);
    expected.kinds.part_mut().fill(0);
    expected.kinds.part_mut()[1] = 3;
    expected.kinds.part_mut()[4] = 6;
    expected.words.part_mut().fill(0);
    expected.words.part_mut()[1] = 0x0102_0304;
    expected.words.part_mut()[4..6].copy_from_slice(&[0x2122_2324, 0x1112_1314]);
    expected.state.part_mut()[..7].copy_from_slice(&[2, 3, 0, 0, 0, 0, 0]);
    // The code, and no handlers, where the record of the arguments begins.
    expected.answer.part_mut()[..4].copy_from_slice(&[12, 4, 42, 0]);
    memory.assert_equals(&expected, &"load");
}

#[test]
fn a_load_asks_for_seven_state_words_and_four_answer_words() {
    for (state, answer) in too_short() {
        let mut memory = Memory::new(&good_sheet(), ENOUGH);
        memory.cut(state, answer);
        writes_nothing(&memory, Memory::load, 26, &format!("{state} and {answer}"));
    }
    let mut memory = Memory::new(&good_sheet(), ENOUGH);
    memory.cut(STATE_WORDS, ANSWER_WORDS);
    assert_eq!(memory.load(), 0);
}

#[test]
fn a_bad_sheet_has_its_own_number_first() {
    for (number, sheet) in bad_sheets() {
        let lengths = Lengths {
            kinds: 0,
            words: 1,
            slots: 0,
            log: 0,
            ..ENOUGH
        };
        let enough = [(STATE_WORDS, ANSWER_WORDS), (ENOUGH.state, ENOUGH.answer)];
        for (state, answer) in too_short().chain(enough) {
            // Memory that would be refused too, with 26, and memory that is large enough.
            for lengths in [lengths, ENOUGH] {
                let mut memory = Memory::new(&sheet, lengths);
                memory.cut(state, answer);
                let what = format!("{number} with {state} and {answer}");
                writes_nothing(&memory, Memory::load, number, &what);
            }
        }
    }
}

#[test]
fn a_load_refuses_memory_that_does_not_suit() {
    let largest = Lengths {
        kinds: 65_536,
        words: 65_536,
        ..ENOUGH
    };
    let exact = Lengths {
        kinds: 6,
        words: 6,
        slots: 5,
        ..ENOUGH
    };
    for lengths in [exact, largest] {
        assert_eq!(Memory::new(&good_sheet(), lengths).load(), 0);
    }
    for lengths in [
        Lengths { slots: 4, ..exact },
        Lengths {
            kinds: 5,
            words: 5,
            ..exact
        },
        Lengths { kinds: 7, ..exact },
        Lengths { words: 7, ..exact },
        Lengths {
            kinds: 65_537,
            words: 65_537,
            ..largest
        },
    ] {
        let memory = Memory::new(&good_sheet(), lengths);
        writes_nothing(&memory, Memory::load, 26, &lengths.kinds);
    }
}

/// Memories on which steps, presses and runs of every kind of end are made: an ordinary step, one that
/// a handler catches, a return, an exception, and refusals by the first question, the second, the
/// third and a later one.
fn situations() -> Vec<(&'static str, Memory)> {
    let ordinary = Memory::standing(2, &ADDS, 1, &[3]);
    let mut uneven = ordinary.clone();
    uneven.kinds = Lent::new(&[0; 19], 0x5A);
    let mut no_code = ordinary.clone();
    no_code.code = 0..0;
    let throw = Memory::standing(2, &[0x6C], 0, &[1, 0]);
    let mut caught = throw.clone();
    caught.lend_handlers(&handler([0, 1, 0, 0]));
    vec![
        ("ordinary", ordinary),
        ("caught", caught),
        ("return", Memory::standing(2, &ADDS, 3, &[7])),
        ("throw", throw),
        ("refused 1", uneven),
        ("refused 2", no_code),
        ("refused 3", Memory::standing(1, &ADDS, 2, &[3, 4])),
        ("refused 7", Memory::standing(2, &ADDS, 2, &[3])),
    ]
}

#[test]
fn step_forward_and_run_ask_for_state_and_answer_words_before_everything_else() {
    for (name, memory) in situations() {
        for (state, answer) in too_short() {
            let mut memory = memory.clone();
            memory.cut(state, answer);
            let what = format!("{name} with {state} and {answer}");
            writes_nothing(&memory, Memory::step, 1, &what);
            writes_nothing(&memory, Memory::forward, 1, &what);
            for budget in [0, 5] {
                writes_nothing(&memory, |memory| memory.run(budget), 1, &what);
            }
        }
    }
}

#[test]
fn back_asks_for_state_words_before_everything_else() {
    for (name, mut memory) in situations() {
        // One step that could be taken back where nothing else is wrong.
        memory.forward();
        for state in 0..STATE_WORDS {
            let mut memory = memory.clone();
            memory.cut(state, ANSWER_WORDS);
            writes_nothing(&memory, Memory::back, 1, &format!("{name} with {state}"));
        }
    }
}

#[test]
fn presses_ask_for_state_words_and_answers() {
    for (name, memory) in situations() {
        for presses in [&[][..], &[1], &[1, 0, 1, 0]] {
            let enough = 3 * presses.len();
            for state in 0..STATE_WORDS {
                let mut memory = memory.clone();
                memory.cut(state, ANSWER_WORDS);
                memory.lend_presses(presses, enough);
                writes_nothing(&memory, Memory::presses, 1, &format!("{name} with {state}"));
            }
            for answers in 0..enough {
                let mut memory = memory.clone();
                memory.lend_presses(presses, answers);
                writes_nothing(
                    &memory,
                    Memory::presses,
                    1,
                    &format!("{name} for {answers}"),
                );
            }
            // Presses have no answer words but their own.
            let mut memory = memory.clone();
            memory.cut(STATE_WORDS, 0);
            memory.lend_presses(presses, enough);
            assert_eq!(memory.presses(), 0, "{name}");
        }
    }
}

#[test]
fn no_press_leaves_everything() {
    for (name, mut memory) in situations() {
        memory.lend_presses(&[], 2);
        writes_nothing(&memory, Memory::presses, 0, &name);
    }
}

/// Memories that question 1 refuses because a size is above 65,535, though there are slots enough.
fn oversized() -> Vec<Memory> {
    let lengths = Lengths {
        slots: 140_000,
        ..ENOUGH
    };
    let mut memory = Memory::loaded(&sheet(2, 2, &ADDS, &[]), lengths);
    // A step to take back, so that size is all that is wrong.
    assert_eq!(memory.forward(), 0);
    let with = |place: usize, size: u32| {
        let mut memory = memory.clone();
        memory.state.part_mut()[place] = size;
        memory
    };
    let sizes = [65_536, 65_538, 0x0002_0002, u32::MAX];
    sizes
        .into_iter()
        .flat_map(|size| [with(0, size), with(1, size)])
        .collect()
}

#[test]
fn a_size_above_16_bits_is_no_states() {
    for memory in oversized() {
        let what = format!("{:?}", memory.state.part());
        writes_nothing(&memory, Memory::step, 1, &what);
        writes_nothing(&memory, Memory::forward, 1, &what);
        writes_nothing(&memory, Memory::back, 1, &what);
        for budget in [0, 5] {
            let (mut after, mut expected) = (memory.clone(), memory.clone());
            expected.answer.part_mut()[..4].fill(0);
            assert_eq!(after.run(budget), 1, "{what}");
            after.assert_equals(&expected, &what);
        }
        let mut after = memory.clone();
        after.lend_presses(&[1, 0, 255], 10);
        let mut expected = after.clone();
        expected.answers.part_mut()[..9].copy_from_slice(&[1, 0, 0, 1, 0, 0, 1, 0, 0]);
        assert_eq!(after.presses(), 0, "{what}");
        after.assert_equals(&expected, &what);
    }
}

#[test]
fn a_size_of_16_bits_is_a_states() {
    let lengths = Lengths {
        slots: 131_070,
        ..ENOUGH
    };
    let mut memory = Memory::loaded(&sheet(65_535, 65_535, &ADDS, &[]), lengths);
    assert_eq!(memory.forward(), 0);
    assert_eq!(memory.back(), 0);
    assert_eq!(memory.step(), 0);
    assert_eq!(memory.run(9), 101);
    // One slot less.
    let mut memory = Memory::loaded(&sheet(65_535, 65_535, &ADDS, &[]), lengths);
    memory.slots = Lent::new(&[0; 131_069], 0);
    writes_nothing(&memory, Memory::step, 1, &"131,069 slots");
}

#[test]
fn pc_and_depth_are_compared_with_all_their_bits() {
    for (place, number) in [(2, 2), (3, 3)] {
        for word in [65_536, 0x8000_0000, u32::MAX] {
            let mut memory = Memory::loaded(&sheet(2, 0, &ADDS, &[]), ENOUGH);
            memory.state.part_mut()[place] = word;
            let what = format!("{word} at {place}");
            writes_nothing(&memory, Memory::step, number, &what);
            writes_nothing(&memory, Memory::forward, number, &what);
            writes_nothing(&memory, Memory::back, number, &what);
        }
    }
}

#[test]
fn ten_times_count_does_not_wrap() {
    // Ten times these, with 64 bits, is 4, 14 and 0: a log of six entries would reach that.
    let wrapping = [
        0x1999_9999_9999_999A,
        0x1999_9999_9999_999B,
        0x8000_0000_0000_0000,
    ];
    for count in wrapping
        .into_iter()
        .chain([7, u32::MAX.into(), 1 << 32, u64::MAX])
    {
        let mut memory = Memory::loaded(&sheet(2, 0, &ADDS, &[]), ENOUGH);
        memory.log.part_mut().fill(0);
        memory.state.part_mut()[4..6].copy_from_slice(&[count as u32, (count >> 32) as u32]);
        writes_nothing(&memory, Memory::forward, 12, &count);
        writes_nothing(&memory, Memory::back, 14, &count);
        // A step without history does not look at the log.
        assert_eq!(memory.step(), 0);
        assert_eq!(memory.state.part()[..7], [2, 0, 1, 1, 0, 0, 0]);
    }
}

#[test]
fn an_ordinary_step_writes_slots_and_state() {
    let mut memory = Memory::standing(2, &ADDS, 1, &[3]);
    memory.state.part_mut()[4..6].copy_from_slice(&[5, 6]);
    let mut expected = memory.clone();
    expected.slots.part_mut()[1] = 4;
    expected.state.part_mut()[..7].copy_from_slice(&[2, 0, 2, 2, 0, 0, 0]);
    assert_eq!(memory.step(), 0);
    memory.assert_equals(&expected, &"step");
}

#[test]
fn a_granted_press_writes_slots_log_and_state() {
    let mut memory = Memory::standing(2, &ADDS, 2, &[3, 4]);
    memory.state.part_mut()[4] = 1;
    let mut after_forward = memory.clone();
    after_forward.slots.part_mut()[0] = 7;
    after_forward.state.part_mut()[..7].copy_from_slice(&[2, 0, 3, 1, 2, 0, 0]);
    // Pc, depth, first place, how many, and the old word.
    after_forward.log.part_mut()[10..20].copy_from_slice(&[2, 2, 0, 1, 3, 0, 0, 0, 0, 0]);
    let mut after_back = memory.clone();
    after_back.log = after_forward.log.clone();

    assert_eq!(memory.forward(), 0);
    memory.assert_equals(&after_forward, &"forward");
    assert_eq!(memory.back(), 0);
    memory.assert_equals(&after_back, &"back");
}

/// Returns of each kind: code, stack, number, value words.
const RETURNS: [(u8, &[u32], u32, [u32; 2]); 6] = [
    (0xAC, &[0x8000_0001], 101, [0x8000_0001, 0]),
    (0xAE, &[0x7FA0_0001], 102, [0x7FA0_0001, 0]),
    (0xB0, &[5], 103, [5, 0]),
    (
        0xAD,
        &[0x1111_1111, 0x8222_2222],
        104,
        [0x1111_1111, 0x8222_2222],
    ),
    (
        0xAF,
        &[0x3333_3333, 0xFFF4_4444],
        105,
        [0x3333_3333, 0xFFF4_4444],
    ),
    (0xB1, &[9, 9], 106, [0, 0]),
];

#[test]
fn a_return_writes_two_answer_words_and_nothing_else() {
    for (opcode, stack, number, value) in RETURNS {
        let memory = Memory::standing(2, &[opcode], 0, stack);
        let mut expected = memory.clone();
        expected.answer.part_mut()[..2].copy_from_slice(&value);
        for press in [Memory::step, Memory::forward] {
            let mut memory = memory.clone();
            // Pressed again, it comes again.
            for _ in 0..2 {
                assert_eq!(press(&mut memory), number);
                memory.assert_equals(&expected, &number);
            }
        }
    }
}

#[test]
fn an_exception_and_a_refusal_write_nothing() {
    for (name, memory) in situations().split_off(3) {
        let number = match name.strip_prefix("refused ") {
            Some(number) => number.parse().unwrap(),
            None => 110,
        };
        writes_nothing(&memory, Memory::step, number, &name);
        writes_nothing(&memory, Memory::forward, number, &name);
    }
}

/// What a run has to leave.
struct Leaves {
    number: u32,
    pc: u32,
    /// The operand stack, whose length is the depth.
    stack: &'static [u32],
    /// The value's words and the steps' words.
    answer: [u32; 4],
}

/// Runs with a count that is not 0, and compares everything that is lent.
fn run_leaves(memory: &Memory, budget: u64, leaves: Leaves) {
    let mut after = memory.clone();
    after.state.part_mut()[4..6].copy_from_slice(&[5, 6]);
    let mut expected = after.clone();
    let depth = leaves.stack.len();
    expected.slots.part_mut()[..depth].copy_from_slice(leaves.stack);
    expected.state.part_mut()[2..6].copy_from_slice(&[leaves.pc, depth as u32, 0, 0]);
    expected.answer.part_mut()[..4].copy_from_slice(&leaves.answer);
    assert_eq!(after.run(budget), leaves.number);
    after.assert_equals(&expected, &format!("{} after {budget}", leaves.number));
}

#[test]
fn a_run_writes_its_state_and_four_answer_words() {
    let memory = Memory::standing(2, &ADDS, 1, &[3]);
    let answer = [0, 0, 0, 0];
    run_leaves(
        &memory,
        0,
        Leaves {
            number: 120,
            pc: 1,
            stack: &[3],
            answer,
        },
    );
    let answer = [0, 0, 1, 0];
    run_leaves(
        &memory,
        1,
        Leaves {
            number: 120,
            pc: 2,
            stack: &[3, 4],
            answer,
        },
    );
    // The sum lies where the 3 was, and the 4 stays above the top.
    let mut after = Memory::standing(2, &ADDS, 1, &[3]);
    after.slots.part_mut()[1] = 4;
    let answer = [0, 0, 2, 0];
    run_leaves(
        &after,
        2,
        Leaves {
            number: 120,
            pc: 3,
            stack: &[7],
            answer,
        },
    );
    let answer = [7, 0, 2, 0];
    for budget in [3, 4, u64::MAX] {
        run_leaves(
            &after,
            budget,
            Leaves {
                number: 101,
                pc: 3,
                stack: &[7],
                answer,
            },
        );
    }
    for (opcode, stack, number, [low, high]) in RETURNS {
        // NOP, then the return.
        let memory = Memory::standing(2, &[0, opcode], 0, stack);
        let answer = [low, high, 1, 0];
        run_leaves(
            &memory,
            9,
            Leaves {
                number,
                pc: 1,
                stack,
                answer,
            },
        );
    }
}

#[test]
fn a_run_that_meets_an_exception_or_a_refusal_says_how_far_it_got() {
    let answer = [0, 0, 1, 0];
    let throws = Memory::standing(2, &[0, 0x6C], 0, &[1, 0]);
    run_leaves(
        &throws,
        5,
        Leaves {
            number: 110,
            pc: 1,
            stack: &[1, 0],
            answer,
        },
    );
    let refused = Memory::standing(2, &[0, 0x60], 0, &[1]);
    run_leaves(
        &refused,
        5,
        Leaves {
            number: 7,
            pc: 1,
            stack: &[1],
            answer,
        },
    );
    let answer = [0, 0, 0, 0];
    let refused = Memory::standing(2, &[0x60], 0, &[1]);
    run_leaves(
        &refused,
        5,
        Leaves {
            number: 7,
            pc: 0,
            stack: &[1],
            answer,
        },
    );
    // With no budget the instruction is not looked at.
    run_leaves(
        &refused,
        0,
        Leaves {
            number: 120,
            pc: 0,
            stack: &[1],
            answer,
        },
    );
}

#[test]
fn a_run_refused_by_questions_1_to_3_writes_four_zeros() {
    for (name, mut memory) in situations().split_off(4) {
        if name == "refused 7" {
            continue;
        }
        let number = name.strip_prefix("refused ").unwrap().parse().unwrap();
        memory.state.part_mut()[4..6].copy_from_slice(&[5, 6]);
        for budget in [0, 1, u64::MAX] {
            let (mut after, mut expected) = (memory.clone(), memory.clone());
            expected.answer.part_mut()[..4].fill(0);
            assert_eq!(after.run(budget), number, "{name}");
            after.assert_equals(&expected, &name);
        }
    }
}

#[test]
fn a_long_run_counts_its_steps() {
    // GOTO 0.
    let mut memory = Memory::standing(0, &[0xA7, 0, 0], 0, &[]);
    assert_eq!(memory.run(3_000_000), 120);
    assert_eq!(memory.answer.part()[..4], [0, 0, 3_000_000, 0]);
}

#[test]
fn presses_answer_in_three_words_each() {
    let mut memory = Memory::loaded(&sheet(2, 0, &ADDS, &[]), ENOUGH);
    // Byte 0 is back, and every other byte forward.
    memory.lend_presses(&[0, 1, 2, 255, 128, 0, 0x10, 77], 26);
    let mut expected = memory.clone();
    assert_eq!(memory.presses(), 0);
    let answers = [
        [13, 0, 0],
        [0, 0, 0],
        [0, 0, 0],
        [0, 0, 0],
        [101, 7, 0],
        [0, 0, 0],
        [0, 0, 0],
        [101, 7, 0],
    ];
    expected.answers.part_mut()[..24].copy_from_slice(answers.as_flattened());
    expected.slots.part_mut()[..2].copy_from_slice(&[7, 4]);
    expected.state.part_mut()[..7].copy_from_slice(&[2, 0, 3, 1, 3, 0, 0]);
    expected.log.part_mut()[..10].copy_from_slice(&[0, 0, 0, 1, 0, 0, 0, 0, 0, 0]);
    expected.log.part_mut()[10..20].copy_from_slice(&[1, 1, 1, 1, 0, 0, 0, 0, 0, 0]);
    expected.log.part_mut()[20..30].copy_from_slice(&[2, 2, 0, 1, 3, 0, 0, 0, 0, 0]);
    memory.assert_equals(&expected, &"presses");
}

#[test]
fn presses_give_each_value_in_two_words() {
    for (opcode, stack, number, [low, high]) in RETURNS {
        let mut memory = Memory::standing(2, &[opcode], 0, stack);
        memory.lend_presses(&[1], 3);
        assert_eq!(memory.presses(), 0);
        assert_eq!(memory.answers.part(), [number, low, high]);
    }
}

#[test]
fn empty_parts_are_met_by_answers() {
    let memory = Memory::new(&[], NOTHING);
    writes_nothing(&memory, Memory::load, 23, &"load");
    writes_nothing(&memory, Memory::step, 1, &"step");
    writes_nothing(&memory, Memory::forward, 1, &"forward");
    writes_nothing(&memory, Memory::back, 1, &"back");
    writes_nothing(&memory, |memory| memory.run(1), 1, &"run");
    writes_nothing(&memory, Memory::presses, 1, &"presses");
    // A method without locals, stack, constants and arguments needs no memory but for its state.
    let lengths = Lengths {
        state: STATE_WORDS,
        answer: ANSWER_WORDS,
        ..NOTHING
    };
    let mut memory = Memory::loaded(&sheet(0, 0, &[0xB1], &[]), lengths);
    assert_eq!(memory.step(), 106);
    assert_eq!(memory.forward(), 106);
    assert_eq!(memory.run(1), 106);
}
