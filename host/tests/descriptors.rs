//! The record DS at the C boundary: which descriptors are good, what a load makes of one, and what
//! the return type does to a return. Everything lent is compared, as in boundary.rs.
#![forbid(unsafe_code)]

mod common;

use common::memory::Memory;
use common::{sheet, with_descriptor, writes_nothing, ENOUGH, NOTHING};
use workbook_host::records::{arguments, constant, record, sizes};

/// The state's word with the return type.
const RETURN_TYPE: usize = 6;

/// All return types, and the opcode that suits each.
const LETTERS: [(u8, u8); 10] = [
    (b'B', 0xAC),
    (b'C', 0xAC),
    (b'D', 0xAF),
    (b'F', 0xAE),
    (b'I', 0xAC),
    (b'J', 0xAD),
    (b'L', 0xB0),
    (b'S', 0xAC),
    (b'V', 0xB1),
    (b'Z', 0xAC),
];

/// No letters: lower case, one that JVMS has not, a bracket, letters with a bit more, and all bits.
const NO_LETTERS: [u32; 8] = [
    0x62,
    0x41,
    0x5B,
    0x142,
    0x1_0056,
    0x5600_0000,
    0x8000_0049,
    u32::MAX,
];

/// A load that has to be refused with a number, also where no memory is lent: 26 comes last.
#[track_caller]
fn refuses(sheet: &[u8], number: u32, what: &str) {
    for lengths in [ENOUGH, NOTHING] {
        writes_nothing(&Memory::new(sheet, lengths), Memory::load, number, &what);
    }
}

/// A sheet whose method takes so many argument words.
fn taking(descriptor: &[u8], words: usize) -> Vec<u8> {
    let words = vec![9; words];
    with_descriptor(descriptor, &sheet(2, 256, &[0x00, 0xB1], &words))
}

/// A descriptor with one byte so many times.
fn repeated(before: &str, byte: u8, times: usize, after: &str) -> Vec<u8> {
    [before.as_bytes(), &vec![byte; times], after.as_bytes()].concat()
}

/// Good descriptors, with their return types and how many argument words they take.
fn good_descriptors() -> Vec<(Vec<u8>, u8, usize)> {
    let mut table: Vec<(Vec<u8>, u8, usize)> = vec![
        (b"(IJ)B".to_vec(), b'B', 3),
        (b"(BCDFIJSZ)V".to_vec(), b'V', 10),
        (b"([J[[DLjava/lang/String;D)F".to_vec(), b'F', 5),
        (b"()[I".to_vec(), b'L', 0),
        (b"()[[Ljava/lang/Object;".to_vec(), b'L', 0),
        // A name of 4.2.2 may have any character but four.
        (b"()LV;".to_vec(), b'L', 0),
        (b"(L)(<> ;La/)V/b;)J".to_vec(), b'J', 2),
        // Two bytes for 0, 80 and 7FF; three for 800 and FFFF, and for a surrogate by itself.
        (b"()L\xC0\x80\xC2\x80\xDF\xBF;".to_vec(), b'L', 0),
        (b"()L\xE0\xA0\x80\xEF\xBF\xBF;".to_vec(), b'L', 0),
        (b"()L\xED\xA0\x80;".to_vec(), b'L', 0),
        // The largest: 255 places, and 255 dimensions.
        (repeated("(", b'I', 255, ")V"), b'V', 255),
        (repeated("(", b'J', 127, "I)V"), b'V', 255),
        (repeated("()", b'[', 255, "J"), b'L', 0),
        (repeated("(", b'[', 255, "J)V"), b'V', 1),
    ];
    let alone = LETTERS.iter().filter(|(letter, _)| *letter != b'L');
    table.extend(alone.map(|&(letter, _)| ([b'(', b')', letter].to_vec(), letter, 0)));
    table
}

fn bad_descriptors() -> Vec<Vec<u8>> {
    // The first one is empty.
    let grammar =
        b"|(|()|V|)V|(V|(I|(V)V|()VV|()I | ()V|()[|()[V|([)V|([V)V|()b|()A|(A)V|(()V|())V|\
        ()L|()L;|()Lab|()L/a;|()La/;|()La//b;|()La.b;|()La[b;|()La;;|(La)V|()[L;";
    let grammar = grammar.split(|byte| *byte == b'|').map(<[u8]>::to_vec);
    // A byte 0; no first byte; too few bytes, and too many; longer than 7F and 7FF need; from F0 on.
    let names: [&[u8]; 15] = [
        b"\x00",
        b"\x80",
        b"\xFF",
        b"\xC2",
        b"\xC2a",
        b"\xE0\xA0",
        b"\xE0\xA0a",
        b"\xE0a\xA0",
        b"\xC2\x80\x80",
        b"\xC0\x81",
        b"\xC1\xBF",
        b"\xE0\x9F\xBF",
        b"\xF0\xA0\x80",
        b"\xF1\x80\x80",
        b"\xF0\x90\x80\x80",
    ];
    let names = names.map(|name| [b"()L", name, b";"].concat());
    let too_large = [
        repeated("(", b'I', 256, ")V"),
        repeated("(", b'J', 128, ")V"),
        repeated("()", b'[', 256, "J"),
        repeated("(", b'[', 256, "J)V"),
    ];
    grammar.chain(names).chain(too_large).collect()
}

#[test]
fn a_load_gives_the_return_type_and_where_the_code_lies() {
    for (descriptor, letter, words) in good_descriptors() {
        let what = String::from_utf8_lossy(&descriptor).into_owned();
        let mut memory = Memory::new(&taking(&descriptor, words), ENOUGH);
        let mut expected = memory.clone();
        expected.kinds.part_mut().fill(0);
        expected.words.part_mut().fill(0);
        expected.slots.part_mut()[..258].fill(0);
        expected.slots.part_mut()[..words].fill(9);
        let state = [2, 256, 0, 0, 0, 0, letter.into()];
        expected.state.part_mut()[..7].copy_from_slice(&state);
        let offset = 12 + 4 + descriptor.len() as u32;
        expected.answer.part_mut()[..4].copy_from_slice(&[offset, 2, offset + 2, 0]);
        assert_eq!(memory.load(), 0, "{what}");
        memory.assert_equals(&expected, &what);
        memory.take_parts();
        assert_eq!(memory.code(), [0x00, 0xB1], "{what}");
    }
}

#[test]
fn a_bad_descriptor_is_refused() {
    for descriptor in bad_descriptors() {
        let what = String::from_utf8_lossy(&descriptor);
        // An empty CD after it, which is 24, so that 31 cannot be the arguments'.
        let sheet = [
            sizes(2, 256),
            record(b"DS", &descriptor),
            b"CD\0\0".to_vec(),
        ];
        refuses(&sheet.concat(), 31, &what);
    }
}

#[test]
fn the_arguments_are_what_the_descriptor_takes() {
    for (descriptor, _, words) in good_descriptors() {
        let what = String::from_utf8_lossy(&descriptor);
        refuses(&taking(&descriptor, words + 1), 31, &what);
        if words > 0 {
            refuses(&taking(&descriptor, words - 1), 31, &what);
        }
    }
    // The words themselves are free.
    let sheet = with_descriptor(b"(Z)V", &sheet(0, 1, &[0xB1], &[2]));
    assert_eq!(Memory::loaded(&sheet, ENOUGH).slots.part()[0], 2);
}

#[test]
fn a_load_asks_in_its_order() {
    let (limits, code) = (sizes(1, 1), record(b"CD", &[0xB1]));
    let (good, bad) = (record(b"DS", b"()V"), record(b"DS", b"()"));
    let none = arguments(&[]);
    let int = constant(1, 3, &[0; 4]);
    let table: [(u32, &str, &[&[u8]]); 16] = [
        (21, "cut in DS", &[&limits, &bad[..5]]),
        (22, "ds", &[&limits, &record(b"ds", b"()V"), &code, &none]),
        (23, "DS first", &[&good, &limits, &code, &none]),
        (23, "a bad DS first", &[&bad, &limits, &code, &none]),
        (23, "two DS", &[&limits, &good, &good, &code, &none]),
        (23, "a bad second DS", &[&limits, &good, &bad, &code, &none]),
        (23, "DS after CD", &[&limits, &code, &good, &none]),
        (23, "a bad DS after CD", &[&limits, &code, &bad, &none]),
        (23, "DS after KI", &[&limits, &code, &int, &good, &none]),
        (23, "DS after AR", &[&limits, &code, &none, &good]),
        (23, "no CD", &[&limits, &good, &none]),
        (23, "DS at the end", &[&limits, &good]),
        // A bad descriptor comes before what is wrong after it.
        (31, "a bad DS, no CD", &[&limits, &bad, &none]),
        (31, "a bad DS, a cut CD", &[&limits, &bad, &code[..3]]),
        (31, "a bad DS, an empty CD", &[&limits, &bad, b"CD\0\0"]),
        (24, "an empty CD", &[&limits, &good, b"CD\0\0", &none]),
    ];
    for (number, what, records) in table {
        refuses(&records.concat(), number, what);
    }
    // One local. Of AR 24 is asked, then 27, then 31.
    let three_bytes = record(b"AR", &[0; 3]);
    let table = [
        (24, "()V", &three_bytes),
        (27, "()V", &arguments(&[1, 2])),
        (27, "(J)V", &arguments(&[1, 2])),
        (31, "()V", &arguments(&[1])),
        (31, "(J)V", &arguments(&[1])),
        (31, "(I)V", &none),
    ];
    for (number, descriptor, words) in table {
        let descriptor = record(b"DS", descriptor.as_bytes());
        let sheet = [&limits[..], &descriptor, &code, words].concat();
        refuses(&sheet, number, &format!("AR, {number}"));
    }
}

/// A memory with a method of a NOP and a return instruction, which stands at the NOP with words on
/// its stack and a return type that no load gave.
fn returning(opcode: u8, return_type: u32, stack: &[u32]) -> Memory {
    let mut memory = Memory::standing(2, &[0x00, opcode], 0, stack);
    memory.state.part_mut()[RETURN_TYPE] = return_type;
    memory
}

/// Meets the return by a step, a forward, a run and a list, each of which has to give an answer: the
/// number and the value's words.
#[track_caller]
fn meets(memory: &Memory, answer: [u32; 3], what: &str) {
    let [number, low, high] = answer;
    let mut standing = memory.clone();
    standing.state.part_mut()[2] = 1;
    let mut told = standing.clone();
    if number > 100 {
        told.answer.part_mut()[..2].copy_from_slice(&[low, high]);
    }
    for press in [Memory::step, Memory::forward] {
        let mut after = standing.clone();
        assert_eq!(press(&mut after), number, "{what}");
        after.assert_equals(&told, &what);
    }
    // From the NOP on.
    let mut ran = memory.clone();
    let mut expected = standing.clone();
    expected.answer.part_mut()[..4].copy_from_slice(&[low, high, 1, 0]);
    assert_eq!(ran.run(5), number, "{what}");
    ran.assert_equals(&expected, &what);
    let mut pressed = standing.clone();
    pressed.lend_presses(&[1, 1], 7);
    let mut expected = pressed.clone();
    expected.answers.part_mut()[..3].copy_from_slice(&answer);
    expected.answers.part_mut()[3..6].copy_from_slice(&answer);
    assert_eq!(pressed.presses(), 0, "{what}");
    pressed.assert_equals(&expected, &what);
}

/// What each return instruction gives of 80 and FFFFFFFF, where nothing narrows it.
const RETURNS: [(u8, [u32; 3]); 6] = [
    (0xAC, [101, 0xFFFF_FFFF, 0]),
    (0xAD, [104, 0x80, 0xFFFF_FFFF]),
    (0xAE, [102, 0xFFFF_FFFF, 0]),
    (0xAF, [105, 0x80, 0xFFFF_FFFF]),
    (0xB0, [103, 0xFFFF_FFFF, 0]),
    (0xB1, [106, 0, 0]),
];

#[test]
fn a_return_instruction_of_another_kind_is_refused() {
    for (opcode, answer) in RETURNS {
        for (letter, suits) in LETTERS {
            let what = format!("opcode {opcode} of {}", letter as char);
            let memory = returning(opcode, letter.into(), &[0x80, 0xFFFF_FFFF]);
            let expected = match (opcode == suits, letter) {
                (false, _) => [32, 0, 0],
                (true, b'Z') => [101, 1, 0],
                (true, b'C') => [101, 0xFFFF, 0],
                (true, _) => answer,
            };
            meets(&memory, expected, &what);
        }
    }
}

#[test]
fn without_a_letter_nothing_is_asked_and_nothing_narrowed() {
    for (opcode, answer) in RETURNS {
        for word in NO_LETTERS.into_iter().chain([0]) {
            let memory = returning(opcode, word, &[0x80, 0xFFFF_FFFF]);
            meets(&memory, answer, &format!("opcode {opcode} of {word:X}"));
        }
    }
}

#[test]
fn the_operand_stack_is_asked_before_the_return_type() {
    let memory = returning(0xAC, u32::from(b'V'), &[]);
    meets(&memory, [7, 0, 0], "nothing to return");
}

/// LDC 1 and IRETURN, where constant 1 is an int.
fn constant_sheet(descriptor: Option<&[u8]>, int: u32) -> Vec<u8> {
    let pool = constant(1, 3, &int.to_be_bytes());
    let code = record(b"CD", &[0x12, 1, 0xAC]);
    let sheet = [sizes(1, 0), code, pool, arguments(&[])].concat();
    match descriptor {
        Some(descriptor) => with_descriptor(descriptor, &sheet),
        None => sheet,
    }
}

#[test]
fn a_returned_int_is_narrowed() {
    let table: [(Option<&[u8]>, u32, u32); 22] = [
        (Some(b"()B"), 128, 0xFFFF_FF80),
        (Some(b"()B"), 127, 127),
        (Some(b"()B"), 256, 0),
        (Some(b"()B"), 0x1234_56FF, 0xFFFF_FFFF),
        (Some(b"()Z"), 0, 0),
        (Some(b"()Z"), 1, 1),
        (Some(b"()Z"), 2, 0),
        (Some(b"()Z"), 0xFFFF_FFFF, 1),
        (Some(b"()Z"), 0xFFFF_FFFE, 0),
        (Some(b"()C"), 0xFFFF_FFFF, 0xFFFF),
        (Some(b"()C"), 0x8000, 0x8000),
        (Some(b"()C"), 0x1_0000, 0),
        (Some(b"()S"), 0x7FFF, 0x7FFF),
        (Some(b"()S"), 0x8000, 0xFFFF_8000),
        (Some(b"()S"), 0x8001_8000, 0xFFFF_8000),
        (Some(b"()S"), 0xFFFF_0001, 1),
        (Some(b"()I"), 128, 128),
        (Some(b"()I"), 0x8000, 0x8000),
        (Some(b"()I"), 0x8765_4321, 0x8765_4321),
        (None, 2, 2),
        (None, 128, 128),
        (None, 0x8765_4321, 0x8765_4321),
    ];
    for (descriptor, int, value) in table {
        let what = format!("{int:X} of {descriptor:?}");
        let start = Memory::loaded(&constant_sheet(descriptor, int), ENOUGH);
        let mut memory = start.clone();
        assert_eq!(memory.forward(), 0, "{what}");
        // The value itself stays as it was pushed.
        assert_eq!(memory.slots.part()[0], int, "{what}");
        let mut expected = memory.clone();
        expected.answer.part_mut()[..2].copy_from_slice(&[value, 0]);
        assert_eq!(memory.forward(), 101, "{what}");
        memory.assert_equals(&expected, &what);
        let mut ran = start.clone();
        assert_eq!(ran.run(9), 101, "{what}");
        assert_eq!(ran.answer.part()[..4], [value, 0, 1, 0], "{what}");
        let mut pressed = start;
        pressed.lend_presses(&[1, 1], 6);
        assert_eq!(pressed.presses(), 0, "{what}");
        assert_eq!(pressed.answers.part(), [0, 0, 0, 101, value, 0], "{what}");
    }
}

/// Methods of no return, so that every press is granted, with every kind of return type.
fn of_all_return_types() -> impl Iterator<Item = (String, Memory)> {
    let letters = LETTERS.map(|(letter, _)| u32::from(letter));
    let words = letters.into_iter().chain(NO_LETTERS).chain([0]);
    words.map(|word| {
        // ICONST_3, ICONST_4, GOTO 0.
        let mut memory = Memory::standing(4, &[0x06, 0x07, 0xA7, 0xFF, 0xFE], 0, &[]);
        memory.state.part_mut()[RETURN_TYPE] = word;
        (format!("return type {word:X}"), memory)
    })
}

/// What two steps of it leave.
fn after_two_steps(start: &Memory, count: u32) -> Memory {
    let mut expected = start.clone();
    expected.slots.part_mut()[..2].copy_from_slice(&[3, 4]);
    expected.state.part_mut()[2..6].copy_from_slice(&[2, 2, count, 0]);
    expected
}

#[test]
fn steps_and_runs_keep_the_return_type() {
    for (what, start) in of_all_return_types() {
        let mut expected = after_two_steps(&start, 0);
        let mut stepped = start.clone();
        assert_eq!((stepped.step(), stepped.step()), (0, 0), "{what}");
        stepped.assert_equals(&expected, &what);
        let mut ran = start;
        expected.answer.part_mut()[..4].copy_from_slice(&[0, 0, 2, 0]);
        assert_eq!(ran.run(2), 120, "{what}");
        ran.assert_equals(&expected, &what);
    }
}

#[test]
fn presses_keep_the_return_type() {
    for (what, start) in of_all_return_types() {
        let mut forwarded = after_two_steps(&start, 2);
        let entries = [
            [0, 0, 0, 1, 0, 0, 0, 0, 0, 0],
            [1, 1, 1, 1, 0, 0, 0, 0, 0, 0],
        ];
        forwarded.log.part_mut()[..20].copy_from_slice(entries.as_flattened());
        let mut backed = start.clone();
        backed.log = forwarded.log.clone();
        let mut walked = start.clone();
        assert_eq!((walked.forward(), walked.forward()), (0, 0), "{what}");
        walked.assert_equals(&forwarded, &what);
        assert_eq!((walked.back(), walked.back()), (0, 0), "{what}");
        walked.assert_equals(&backed, &what);
        // Both by a list.
        for (list, mut expected) in [(&[1, 1][..], forwarded), (&[1, 1, 0, 0], backed)] {
            let mut pressed = start.clone();
            pressed.lend_presses(list, 12);
            expected.lend_presses(list, 12);
            expected.answers.part_mut()[..3 * list.len()].fill(0);
            assert_eq!(pressed.presses(), 0, "{what}");
            pressed.assert_equals(&expected, &what);
        }
    }
}

#[test]
fn back_does_not_ask_for_the_return_type() {
    // ICONST_0, IRETURN of a method that returns nothing: the step before it can be taken back.
    let sheet = with_descriptor(b"()V", &sheet(1, 0, &[0x03, 0xAC], &[]));
    let start = Memory::loaded(&sheet, ENOUGH);
    let mut memory = start.clone();
    assert_eq!(memory.forward(), 0);
    writes_nothing(&memory, Memory::step, 32, &"step");
    writes_nothing(&memory, Memory::forward, 32, &"forward");
    assert_eq!(memory.back(), 0);
    let mut expected = start;
    expected.log = memory.log.clone();
    memory.assert_equals(&expected, &"back");
}
