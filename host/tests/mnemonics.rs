//! The text of every instruction.
#![forbid(unsafe_code)]

mod common;

use common::random::Random;
use std::collections::HashSet;
use workbook_host::assembler::assemble;
use workbook_host::mnemonics::instruction;
use workbook_host::{step, Answer, Parts, ReturnType, State};

/// All 164 instructions at offset 0, by opcode.
#[rustfmt::skip]
const TABLE: [(&[u8], &str); 164] = [
    (&[0x00], "nop"),
    (&[0x01], "aconst_null"),
    (&[0x02], "iconst_m1"),
    (&[0x03], "iconst_0"),
    (&[0x04], "iconst_1"),
    (&[0x05], "iconst_2"),
    (&[0x06], "iconst_3"),
    (&[0x07], "iconst_4"),
    (&[0x08], "iconst_5"),
    (&[0x09], "lconst_0"),
    (&[0x0A], "lconst_1"),
    (&[0x0B], "fconst_0"),
    (&[0x0C], "fconst_1"),
    (&[0x0D], "fconst_2"),
    (&[0x0E], "dconst_0"),
    (&[0x0F], "dconst_1"),
    (&[0x10, 0x80], "bipush -128"),
    (&[0x11, 0x80, 0x01], "sipush -32767"),
    (&[0x12, 0xC8], "ldc 200"),
    (&[0x13, 0x80, 0x01], "ldc_w 32769"),
    (&[0x14, 0x80, 0x01], "ldc2_w 32769"),
    (&[0x15, 0xC8], "iload 200"),
    (&[0x16, 0xC8], "lload 200"),
    (&[0x17, 0xC8], "fload 200"),
    (&[0x18, 0xC8], "dload 200"),
    (&[0x19, 0xC8], "aload 200"),
    (&[0x1A], "iload_0"),
    (&[0x1B], "iload_1"),
    (&[0x1C], "iload_2"),
    (&[0x1D], "iload_3"),
    (&[0x1E], "lload_0"),
    (&[0x1F], "lload_1"),
    (&[0x20], "lload_2"),
    (&[0x21], "lload_3"),
    (&[0x22], "fload_0"),
    (&[0x23], "fload_1"),
    (&[0x24], "fload_2"),
    (&[0x25], "fload_3"),
    (&[0x26], "dload_0"),
    (&[0x27], "dload_1"),
    (&[0x28], "dload_2"),
    (&[0x29], "dload_3"),
    (&[0x2A], "aload_0"),
    (&[0x2B], "aload_1"),
    (&[0x2C], "aload_2"),
    (&[0x2D], "aload_3"),
    (&[0x36, 0xC8], "istore 200"),
    (&[0x37, 0xC8], "lstore 200"),
    (&[0x38, 0xC8], "fstore 200"),
    (&[0x39, 0xC8], "dstore 200"),
    (&[0x3A, 0xC8], "astore 200"),
    (&[0x3B], "istore_0"),
    (&[0x3C], "istore_1"),
    (&[0x3D], "istore_2"),
    (&[0x3E], "istore_3"),
    (&[0x3F], "lstore_0"),
    (&[0x40], "lstore_1"),
    (&[0x41], "lstore_2"),
    (&[0x42], "lstore_3"),
    (&[0x43], "fstore_0"),
    (&[0x44], "fstore_1"),
    (&[0x45], "fstore_2"),
    (&[0x46], "fstore_3"),
    (&[0x47], "dstore_0"),
    (&[0x48], "dstore_1"),
    (&[0x49], "dstore_2"),
    (&[0x4A], "dstore_3"),
    (&[0x4B], "astore_0"),
    (&[0x4C], "astore_1"),
    (&[0x4D], "astore_2"),
    (&[0x4E], "astore_3"),
    (&[0x57], "pop"),
    (&[0x58], "pop2"),
    (&[0x59], "dup"),
    (&[0x5A], "dup_x1"),
    (&[0x5B], "dup_x2"),
    (&[0x5C], "dup2"),
    (&[0x5D], "dup2_x1"),
    (&[0x5E], "dup2_x2"),
    (&[0x5F], "swap"),
    (&[0x60], "iadd"),
    (&[0x61], "ladd"),
    (&[0x62], "fadd"),
    (&[0x63], "dadd"),
    (&[0x64], "isub"),
    (&[0x65], "lsub"),
    (&[0x66], "fsub"),
    (&[0x67], "dsub"),
    (&[0x68], "imul"),
    (&[0x69], "lmul"),
    (&[0x6A], "fmul"),
    (&[0x6B], "dmul"),
    (&[0x6C], "idiv"),
    (&[0x6D], "ldiv"),
    (&[0x6E], "fdiv"),
    (&[0x6F], "ddiv"),
    (&[0x70], "irem"),
    (&[0x71], "lrem"),
    (&[0x72], "frem"),
    (&[0x73], "drem"),
    (&[0x74], "ineg"),
    (&[0x75], "lneg"),
    (&[0x76], "fneg"),
    (&[0x77], "dneg"),
    (&[0x78], "ishl"),
    (&[0x79], "lshl"),
    (&[0x7A], "ishr"),
    (&[0x7B], "lshr"),
    (&[0x7C], "iushr"),
    (&[0x7D], "lushr"),
    (&[0x7E], "iand"),
    (&[0x7F], "land"),
    (&[0x80], "ior"),
    (&[0x81], "lor"),
    (&[0x82], "ixor"),
    (&[0x83], "lxor"),
    (&[0x84, 0xC8, 0xFF], "iinc 200 -1"),
    (&[0x85], "i2l"),
    (&[0x86], "i2f"),
    (&[0x87], "i2d"),
    (&[0x88], "l2i"),
    (&[0x89], "l2f"),
    (&[0x8A], "l2d"),
    (&[0x8B], "f2i"),
    (&[0x8C], "f2l"),
    (&[0x8D], "f2d"),
    (&[0x8E], "d2i"),
    (&[0x8F], "d2l"),
    (&[0x90], "d2f"),
    (&[0x91], "i2b"),
    (&[0x92], "i2c"),
    (&[0x93], "i2s"),
    (&[0x94], "lcmp"),
    (&[0x95], "fcmpl"),
    (&[0x96], "fcmpg"),
    (&[0x97], "dcmpl"),
    (&[0x98], "dcmpg"),
    (&[0x99, 0x00, 0x99], "ifeq 153"),
    (&[0x9A, 0x00, 0x9A], "ifne 154"),
    (&[0x9B, 0x00, 0x9B], "iflt 155"),
    (&[0x9C, 0x00, 0x9C], "ifge 156"),
    (&[0x9D, 0x00, 0x9D], "ifgt 157"),
    (&[0x9E, 0x00, 0x9E], "ifle 158"),
    (&[0x9F, 0x00, 0x9F], "if_icmpeq 159"),
    (&[0xA0, 0x00, 0xA0], "if_icmpne 160"),
    (&[0xA1, 0x00, 0xA1], "if_icmplt 161"),
    (&[0xA2, 0x00, 0xA2], "if_icmpge 162"),
    (&[0xA3, 0x00, 0xA3], "if_icmpgt 163"),
    (&[0xA4, 0x00, 0xA4], "if_icmple 164"),
    (&[0xA5, 0x00, 0xA5], "if_acmpeq 165"),
    (&[0xA6, 0x00, 0xA6], "if_acmpne 166"),
    (&[0xA7, 0x00, 0xA7], "goto 167"),
    (&[
        0xAA, 0x00, 0x00, 0x00,
        0x00, 0x00, 0x00, 0x64, 0xFF, 0xFF, 0xFF, 0xFF,
        0x00, 0x00, 0x00, 0x00, 0x00, 0x00, 0x00, 0x14,
        0x00, 0x00, 0x00, 0x1E,
    ], "tableswitch -1: 20, 0: 30, default: 100"),
    (&[
        0xAB, 0x00, 0x00, 0x00,
        0x00, 0x00, 0x00, 0x64, 0x00, 0x00, 0x00, 0x02,
        0xFF, 0xFF, 0xFF, 0xFB, 0x00, 0x00, 0x00, 0x14,
        0x00, 0x00, 0x00, 0x07, 0x00, 0x00, 0x00, 0x1E,
    ], "lookupswitch -5: 20, 7: 30, default: 100"),
    (&[0xAC], "ireturn"),
    (&[0xAD], "lreturn"),
    (&[0xAE], "freturn"),
    (&[0xAF], "dreturn"),
    (&[0xB0], "areturn"),
    (&[0xB1], "return"),
    (&[0xC4, 0x15, 0x01, 0x02], "wide iload 258"),
    (&[0xC6, 0x00, 0xC6], "ifnull 198"),
    (&[0xC7, 0x00, 0xC7], "ifnonnull 199"),
    (&[0xC8, 0x00, 0x01, 0x11, 0x70], "goto_w 70000"),
];

#[test]
fn each_instruction_has_its_text() {
    for (code, text) in TABLE {
        assert_eq!(instruction(code, 0), text);
    }
}

/// At offset 0 a target is its distance. The texts of switches are no listings.
#[test]
fn the_assembler_gives_the_bytes_of_each_text() {
    for (code, text) in TABLE.into_iter().filter(|(_, text)| !text.contains(':')) {
        let listing = match text.split_once(' ') {
            Some((name, target)) if name.starts_with("if") || name.starts_with("goto") => {
                format!("{name} {:+}", target.parse::<i64>().unwrap())
            }
            _ => text.to_string(),
        };
        assert_eq!(assemble(&listing), Ok(code.to_vec()), "{text}");
    }
}

#[test]
fn the_table_has_each_opcode_of_the_core_once() {
    let core = [0..=45, 54..=78, 87..=167, 170..=177, 196..=196, 198..=200];
    assert!(TABLE
        .iter()
        .map(|(code, _)| code[0])
        .eq(core.into_iter().flatten()));
}

#[test]
fn other_bytes_are_unknown() {
    let known: Vec<u8> = TABLE.iter().map(|(code, _)| code[0]).collect();
    let others: Vec<u8> = (0..=255).filter(|opcode| !known.contains(opcode)).collect();
    assert_eq!(others.len(), 92);
    for opcode in others {
        assert_eq!(
            instruction(&[opcode, 0, 0, 0, 0], 0),
            format!("unknown byte {opcode}")
        );
    }
}

#[test]
fn a_cut_instruction_is_shown_as_such() {
    for (code, text) in TABLE {
        let name = text.split(' ').next().unwrap();
        for length in 1..code.len() {
            let expected = format!("{name} (cut off by the end of the code)");
            assert_eq!(
                instruction(&code[..length], 0),
                expected,
                "{length} bytes of {text}"
            );
        }
        assert_eq!(instruction(&code[..0], 0), "outside of the code");
    }
}

#[test]
fn offsets_outside_of_the_code_are_shown_as_such() {
    for pc in [1, 2, 65_536, u32::MAX] {
        assert_eq!(instruction(&[0], pc), "outside of the code");
    }
}

#[test]
fn bytes_after_an_instruction_do_not_count() {
    for (code, text) in TABLE {
        assert_eq!(instruction(&[code, &[0xFF; 9]].concat(), 0), text);
    }
}

#[test]
fn wide_takes_eleven_instructions() {
    let mut widened = 0;
    for opcode in 0..=255 {
        let text = instruction(&[196, opcode, 0x80, 0x01, 0xFF, 0xFE], 0);
        let plain = instruction(&[opcode, 0x80, 0x01, 0xFF, 0xFE], 0);
        let name = plain.split(' ').next().unwrap();
        match opcode {
            21..=25 | 54..=58 => assert_eq!(text, format!("wide {name} 32769")),
            132 => assert_eq!(text, "wide iinc 32769 -2"),
            _ => assert_eq!(text, format!("wide (cannot widen byte {opcode})")),
        }
        widened += u32::from(!text.contains("cannot"));
    }
    assert_eq!(widened, 11);
}

#[test]
fn targets_are_offsets_in_the_code() {
    // Behind ten NOPs: GOTO -7, GOTO_W -11 (a target before the code), IFEQ 32767.
    let code = |bytes: &[u8]| [&[0; 10], bytes].concat();
    assert_eq!(instruction(&code(&[0xA7, 0xFF, 0xF9]), 10), "goto 3");
    assert_eq!(
        instruction(&code(&[0xC8, 0xFF, 0xFF, 0xFF, 0xF5]), 10),
        "goto_w -1"
    );
    assert_eq!(instruction(&code(&[0x99, 0x7F, 0xFF]), 10), "ifeq 32777");
}

/// A switch behind so many NOPs, with its fields at the next multiple of 4.
fn switch(before: usize, opcode: u8, fields: &[i32]) -> Vec<u8> {
    let mut code = vec![0; before];
    code.push(opcode);
    // The bytes between are not looked at.
    code.resize(code.len().next_multiple_of(4), 0xEE);
    code.extend(fields.iter().flat_map(|field| field.to_be_bytes()));
    code
}

#[test]
fn a_switch_begins_at_a_multiple_of_4() {
    for before in 0..8_u32 {
        let table = switch(before as usize, 170, &[9, 5, 5, -1]);
        let text = format!(
            "tableswitch 5: {}, default: {}",
            i64::from(before) - 1,
            before + 9
        );
        assert_eq!(instruction(&table, before), text);
        let lookup = switch(before as usize, 171, &[9, 1, -6, 3]);
        let text = format!("lookupswitch -6: {}, default: {}", before + 3, before + 9);
        assert_eq!(instruction(&lookup, before), text);
    }
}

#[test]
fn a_switch_that_cannot_be_is_shown_as_such() {
    let cases: [(u8, &[i32], &str); 7] = [
        (171, &[9, 0], "lookupswitch default: 9"),
        (
            171,
            &[9, -1],
            "lookupswitch (number of pairs -1 is negative)",
        ),
        (
            171,
            &[9, i32::MAX],
            "lookupswitch (cut off by the end of the code)",
        ),
        (
            170,
            &[9, 3, 2],
            "tableswitch (lowest index 3 is above highest index 2)",
        ),
        (
            170,
            &[9, i32::MIN, i32::MAX],
            "tableswitch (cut off by the end of the code)",
        ),
        (
            170,
            &[9, i32::MAX, i32::MAX, 4],
            "tableswitch 2147483647: 4, default: 9",
        ),
        (
            170,
            &[9, i32::MIN, i32::MIN, 4],
            "tableswitch -2147483648: 4, default: 9",
        ),
    ];
    for (opcode, fields, text) in cases {
        assert_eq!(instruction(&switch(0, opcode, fields), 0), text);
    }
}

/// The refusal that belongs to a text, where the text says that something is wrong.
fn refusal_of(text: &str) -> Option<u32> {
    let texts = [
        ("outside of the code", 2),
        ("unknown byte", 4),
        ("cannot widen", 4),
        ("cut off", 5),
        ("is above highest index", 6),
        ("is negative", 6),
    ];
    texts
        .into_iter()
        .find(|(part, _)| text.contains(part))
        .map(|(_, number)| number)
}

#[test]
fn what_is_wrong_in_a_text_is_refused_by_the_library() {
    let mut random = Random::new(3);
    let mut met = HashSet::new();
    for round in 0..60_000 {
        // Every opcode many times, then mostly small bytes, so that tables are short enough.
        let length = 1 + random.below(40);
        let byte = |_| {
            let any = random.next() as u8;
            random.pick(&[0, 0, 0, 0, 1, 2, 255, any])
        };
        let mut code: Vec<u8> = (0..length).map(byte).collect();
        let pc = random.below(length + 1) as u32;
        if let Some(opcode) = code.get_mut(pc as usize) {
            *opcode = random.pick(&[round as u8, 170, 171, 196]);
        }
        let mut state = State {
            max_stack: 6,
            max_locals: 0,
            pc,
            depth: 0,
            count: 0,
            return_type: ReturnType::NONE,
        };
        let parts = Parts {
            code: &code,
            kinds: &[],
            words: &[],
            handlers: &[],
        };
        let answer = step(parts, &mut [0; 6], &mut state);
        let text = instruction(&code, pc);
        let expected = refusal_of(&text);
        met.insert(expected);
        match (answer, expected) {
            (Answer::Refused(refusal), Some(number)) => {
                assert_eq!(refusal.number(), number, "{text}: {code:?} at {pc}");
            }
            (answer, Some(number)) => panic!("{text}: {answer} instead of {number}: {code:?}"),
            // Keys that do not rise are shown as they stand.
            (Answer::Refused(refusal), None) if refusal.number() == 6 => {
                assert!(text.starts_with("lookupswitch"), "{text}: {code:?} at {pc}");
            }
            (Answer::Refused(refusal), None) => {
                assert!(refusal.number() > 6, "{text}: {refusal}: {code:?} at {pc}");
            }
            (_, None) => {}
        }
    }
    assert_eq!(met.len(), 5, "{met:?}");
}
