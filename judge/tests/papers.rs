//! The model against what docs/RULES.md says by example.
#![forbid(unsafe_code)]

use bytecode::assembler::assemble;
use bytecode::instructions::switch_operands;
use bytecode::values::bytes;
use judge::answers::Answer;
use judge::opcode_page::page;
use judge::printed_walk::printed;
use judge::step::{step, Method, State};

/// The words that one instruction leaves of these on the stack.
fn left(instruction: &str, stack: &[u32]) -> Vec<u32> {
    let code = assemble(&format!("{instruction}; return")).unwrap();
    let method = Method {
        code: &code,
        kinds: &[],
        words: &[],
        handlers: &[],
    };
    let mut slots = [stack, &[0; 6]].concat();
    let mut state = State {
        max_stack: slots.len() as u32,
        depth: stack.len() as u32,
        ..State::default()
    };
    assert_eq!(step(&method, &mut slots, &mut state), Answer::GRANTED);
    slots.truncate(state.depth as usize);
    slots
}

#[test]
fn the_marked_examples() {
    let examples: [(&str, &[u32], &[u32]); 13] = [
        ("idiv", &[0x8000_0000, 0xFFFF_FFFF], &[0x8000_0000]),
        ("irem", &[0x8000_0000, 0xFFFF_FFFF], &[0]),
        ("lcmp", &[0, 0x8000_0000, 1, 0], &[0xFFFF_FFFF]),
        ("f2i", &[0x4F00_0000], &[0x7FFF_FFFF]),
        ("f2i", &[0x7FC0_0000], &[0]),
        ("i2f", &[16_777_217], &[0x4B80_0000]),
        ("i2f", &[16_777_219], &[0x4B80_0002]),
        ("l2d", &[1, 0x0020_0000], &[0, 0x4340_0000]),
        ("d2f", &[0x1000_0000, 0x3FF0_0000], &[0x3F80_0000]),
        ("ishl", &[1, 33], &[2]),
        ("dup2_x2", &[1, 2, 3, 4], &[3, 4, 1, 2, 3, 4]),
        ("i2b", &[128], &[0xFFFF_FF80]),
        ("l2f", &[1, 0x4000_0040], &[0x5E80_0001]),
    ];
    for (instruction, stack, expected) in examples {
        assert_eq!(
            left(instruction, stack),
            expected,
            "{instruction} {stack:X?}"
        );
    }
    assert_eq!([0, 3, 4].map(switch_operands), [4, 4, 8]);
}

#[test]
fn iinc_of_0_with_255() {
    let method = Method {
        code: &[0x84, 0x00, 0xFF, 0xB1],
        kinds: &[],
        words: &[],
        handlers: &[],
    };
    let (mut slots, mut state) = ([0], State::default());
    state.max_locals = 1;
    assert_eq!(step(&method, &mut slots, &mut state), Answer::GRANTED);
    assert_eq!(slots, [0xFFFF_FFFF]);
}

#[test]
fn the_printed_walk() {
    let sheet = "4C4D000400020000 43440004060760AC 41520000";
    let walk =
        "step pc op depth top\n0 0 6 0 -\n1 1 7 1 00000003\n2 2 96 2 00000004\nreturn int 00000007";
    let sheet = bytes(&sheet.replace(' ', "")).unwrap();
    assert_eq!(printed(&sheet).join("\n"), walk);
    assert_eq!(printed(&sheet[..19]), ["sheet 21"]);
}

#[test]
fn a_division_is_caught() {
    // 5 / 0 at offset 2, and a handler at 4 that gives what it finds.
    let walk = |class: &str, handler: &str| {
        let sheet = format!("4C4D000400020000 4344000508036CACAC {class} {handler} 41520000")
            .replace(' ', "");
        printed(&bytes(&sheet).unwrap()).join("\n")
    };
    let steps = "step pc op depth top\n0 0 8 0 -\n1 1 3 1 00000005";
    let caught = format!("{steps}\n2 2 108 2 00000000\nreturn int 00000001");
    let thrown = format!("{steps}\nthrow arithmetic");
    let (yes, no) = ("4B490007 00010700000001", "4B490007 00010700000000");
    for (class, handler, expected) in [
        ("", "45580008 0002 0003 0004 0000", &caught[..]),
        ("", "45580008 0000 0005 0004 0000", &caught),
        ("", "45580008 0000 0002 0004 0000", &thrown),
        ("", "45580008 0003 0005 0004 0000", &thrown),
        (yes, "45580008 0002 0003 0004 0001", &caught),
        (no, "45580008 0002 0003 0004 0001", &thrown),
        ("", "", &thrown),
        ("", "45580008 0002 0003 0005 0000", "sheet 33"),
        ("", "45580008 0002 0003 0004 0001", "sheet 33"),
        ("", "45580007 0002 0003 0004 00", "sheet 33"),
        ("45580008 0002 0003 0004 0000", yes, "sheet 23"),
        ("4B490007 00010700000002", "", "sheet 25"),
    ] {
        assert_eq!(walk(class, handler), expected, "{class} {handler}");
    }
}

#[test]
fn lines_of_the_page_of_opcodes() {
    let page = page();
    let lines: Vec<&str> = page.lines().collect();
    assert_eq!(lines.len(), 256);
    let owed = [
        "0 1 0 0",
        "18 2 0 1",
        "20 3 0 2",
        "54 2 1 0",
        "89 1 1 2",
        "97 1 4 2",
        "132 3 0 0",
        "170 0 1 0",
        "171 0 1 0",
        "196 254 0 0",
        "200 5 0 0",
        "201 255 0 0",
        "255 255 0 0",
    ];
    for line in owed {
        let opcode: usize = line.split(' ').next().unwrap().parse().unwrap();
        assert_eq!(lines[opcode], line);
    }
}
