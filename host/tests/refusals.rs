//! Each refusal of a step and of a press is met by a small method, and changes nothing.
#![forbid(unsafe_code)]

mod common;

use common::memory::Lent;
use common::{refused, sheet, sheet_with, with_descriptor, Lesson};
use workbook_host::records::{constant, handler};
use workbook_host::{Answer, Press, Refusal, Value, Walk};

/// What the last of some forward presses is answered.
fn last_answer(sheet: Vec<u8>, presses: usize) -> Answer {
    let mut walk = Walk::open(sheet).unwrap();
    for _ in 1..presses {
        assert_eq!(walk.forward(), Answer::Granted);
    }
    let (state, frame) = (walk.state(), walk.frame().to_vec());
    let answer = walk.forward();
    if answer != Answer::Granted {
        assert_eq!((walk.state(), walk.frame()), (state, &frame[..]));
    }
    answer
}

/// The fields of a switch at offset 1, behind its opcode.
fn fields(opcode: u8, numbers: &[i32]) -> Vec<u8> {
    let padding = [0x03, opcode, 0, 0];
    let numbers: Vec<u8> = numbers
        .iter()
        .flat_map(|number| number.to_be_bytes())
        .collect();
    [&padding[..], &numbers].concat()
}

#[test]
fn refusals_of_an_instruction() {
    let table = [
        // INVOKESTATIC; WIDE before NOP.
        (4, sheet(9, 9, &[0xB8, 0, 0], &[]), 1),
        (4, sheet(9, 9, &[0xC4, 0x00, 0, 0], &[]), 1),
        // SIPUSH with one byte; WIDE alone and with one byte of its index.
        (5, sheet(9, 9, &[0x11, 0], &[]), 1),
        (5, sheet(9, 9, &[0xC4], &[]), 1),
        (5, sheet(9, 9, &[0xC4, 0x15, 0], &[]), 1),
        // TABLESWITCH without its fields, then with a table that is too short.
        (5, sheet(9, 9, &fields(0xAA, &[0, 0]), &[]), 2),
        (5, sheet(9, 9, &fields(0xAA, &[0, 0, 1, 0]), &[]), 2),
        // Low above high; a negative number of pairs; keys that do not rise.
        (6, sheet(9, 9, &fields(0xAA, &[0, 1, 0]), &[]), 2),
        (6, sheet(9, 9, &fields(0xAB, &[0, -1]), &[]), 2),
        (6, sheet(9, 9, &fields(0xAB, &[0, 2, 5, 0, 5, 0]), &[]), 2),
        // IADD on one int; ICONST_0 twice with room for one; ILOAD_1 and LLOAD_0 with one local.
        (7, sheet(9, 0, &[0x03, 0x60], &[]), 2),
        (8, sheet(1, 0, &[0x03, 0x03], &[]), 2),
        (9, sheet(9, 1, &[0x1B], &[]), 1),
        (9, sheet(9, 1, &[0x1E], &[]), 1),
        // LDC without a constant; a GOTO before the code; NOP as the last instruction.
        (10, sheet(9, 0, &[0x12, 1], &[]), 1),
        (11, sheet(9, 0, &[0xA7, 0xFF, 0xFF], &[]), 1),
        (11, sheet(9, 0, &[0x00], &[]), 1),
        // ICONST_0, IRETURN of a method that returns nothing; RETURN of one that returns an int.
        (
            32,
            with_descriptor(b"()V", &sheet(9, 0, &[0x03, 0xAC], &[])),
            2,
        ),
        (32, with_descriptor(b"()I", &sheet(9, 0, &[0xB1], &[])), 1),
    ];
    for (number, sheet, presses) in table {
        assert_eq!(
            last_answer(sheet.clone(), presses),
            refused(number),
            "{sheet:?}"
        );
    }
}

#[test]
fn a_constant_has_to_be_of_the_right_kind() {
    // LDC 1, LDC_W 1 and LDC2_W 1, with a constant of each kind.
    let opcodes = [
        &[0x12, 1, 0xB1][..],
        &[0x13, 0, 1, 0xB1],
        &[0x14, 0, 1, 0xB1],
    ];
    for tag in [3, 4, 5, 6] {
        let value = [0; 8];
        let value = if tag < 5 { &value[..4] } else { &value };
        for (place, code) in opcodes.into_iter().enumerate() {
            let sheet = sheet_with(2, 0, code, &[constant(1, tag, value)]);
            let fits = (place == 2) == (tag >= 5);
            let expected = if fits { Answer::Granted } else { refused(10) };
            assert_eq!(last_answer(sheet, 1), expected, "tag {tag} by {code:?}");
        }
    }
}

/// A press that has to be refused, and to change nothing.
fn refuses(mut lesson: Lesson, press: Press, number: u32) {
    let before = lesson.clone();
    assert_eq!(lesson.press(press), refused(number));
    assert!(lesson == before, "refused {number}");
}

/// ICONST_3, ISTORE_0, GOTO 0, two steps into it.
fn lesson() -> Lesson {
    let mut lesson = Lesson::new(&sheet(2, 1, &[0x06, 0x3B, 0xA7, 0xFF, 0xFE], &[]), 2);
    assert_eq!(lesson.press_all(&[Press::Forward; 2]), [Answer::Granted; 2]);
    lesson
}

#[test]
fn refusals_of_a_state_and_its_memory() {
    for press in [Press::Forward, Press::Back] {
        // Three slots are the frame; two are too few.
        let mut few = lesson();
        few.slots = Lent::new(&[0; 2], 9);
        refuses(few, press, 1);
        let mut uneven = lesson();
        uneven.memory.kinds = Lent::new(&[0; 7], 9);
        refuses(uneven, press, 1);
        let mut outside = lesson();
        outside.state.pc = 5;
        refuses(outside, press, 2);
        let mut empty = lesson();
        empty.memory.code = 3..3;
        refuses(empty, press, 2);
        let mut deep = lesson();
        deep.state.depth = 3;
        refuses(deep, press, 3);
    }
}

#[test]
fn refusals_of_the_log() {
    refuses(lesson(), Press::Forward, 12);
    let mut start = lesson();
    assert_eq!(start.press_all(&[Press::Back; 2]), [Answer::Granted; 2]);
    refuses(start, Press::Back, 13);
    let mut short = lesson();
    short.log = Lent::new(&short.log.part()[..19], 9);
    refuses(short, Press::Back, 14);
    // An entry is pc, depth, first place, how many places, six words.
    let bad = [
        (0, 5),
        (0, u32::MAX),
        (1, 3),
        (1, u32::MAX),
        (2, 3),
        (2, u32::MAX),
        (3, 7),
    ];
    for (field, word) in bad {
        let mut lesson = lesson();
        lesson.log.part_mut()[10 + field] = word;
        refuses(lesson, Press::Back, 14);
    }
}

#[test]
fn refusals_of_a_sheet() {
    let sheet = sheet(1, 0, &[0x03, 0xAC], &[]);
    // Every sheet that is cut off somewhere is refused: in a record, or before its last record.
    for length in 0..sheet.len() {
        let between = length == 0 || length == 8 || length == 14;
        let number = if between { 23 } else { 21 };
        let refusal = Refusal::new(number).unwrap();
        assert_eq!(
            Walk::open(sheet[..length].to_vec()).err(),
            Some(refusal),
            "{length}"
        );
    }
    assert_eq!(last_answer(sheet, 2), Answer::Return(Value::Int(0)));
    // A handler that would begin behind the code.
    let sheet = sheet_with(1, 0, &[0x03, 0xAC], &[handler([0, 2, 2, 0])]);
    assert_eq!(Walk::open(sheet).err(), Some(Refusal::SHEET_HANDLER));
}
