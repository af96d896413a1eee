//! The kinds of words against tables: each instruction, each store, halves, arguments, exceptions.
#![forbid(unsafe_code)]

mod common;

use common::{sheet_with, with_descriptor};
use std::collections::HashSet;
use workbook_host::kinds::{descriptor, Kind, Kinds};
use workbook_host::records::{arguments, constant, handler, record, sizes};
use workbook_host::{assembler, forward, instructions, Answer, State, Walk};

/// A kind as a letter, that of a high word small.
fn letters(kinds: &[Kind]) -> String {
    let letter = |kind: &Kind| match kind {
        Kind::Unknown => '?',
        Kind::Int => 'I',
        Kind::Float => 'F',
        Kind::LongLow => 'J',
        Kind::LongHigh => 'j',
        Kind::DoubleLow => 'D',
        Kind::DoubleHigh => 'd',
        Kind::Reference => 'A',
    };
    kinds.iter().map(letter).collect()
}

/// The kinds after all steps of a sheet, of which the last one returns.
fn walked(sheet: Vec<u8>) -> (String, String) {
    let walk = Walk::open(sheet).unwrap();
    let (parts, mut frame, mut state) = (walk.parts(), walk.frame().to_vec(), walk.state());
    let (mut kinds, mut log) = (Kinds::at_start(walk.sheet()), [0; 10]);
    loop {
        let before = State { count: 0, ..state };
        state = before;
        match forward(parts, &mut frame, &mut log, &mut state) {
            Answer::Granted => kinds.step(parts, before, state, &frame),
            Answer::Return(_) => return (letters(kinds.locals()), letters(kinds.stack())),
            answer => panic!("{answer} at {}", before.pc),
        }
    }
}

/// The kinds after a listing, with five locals and a constant of each kind.
fn after(listing: &str) -> (String, String) {
    let code = assembler::assemble(&format!("{listing}; return")).unwrap();
    let constants = [
        constant(1, 3, &[0; 4]),
        constant(2, 4, &[0; 4]),
        constant(3, 5, &[0; 8]),
        constant(5, 6, &[0; 8]),
    ];
    walked(sheet_with(9, 5, &code, &constants))
}

/// Instructions that leave a stack of these kinds.
fn setup(stack: &str) -> String {
    let pushes = stack.chars().map(|letter| match letter {
        'I' => "iconst_1; ",
        'F' => "fconst_1; ",
        'J' => "lconst_1; ",
        'D' => "dconst_1; ",
        'A' => "aconst_null; ",
        _ => "",
    });
    pushes.collect()
}

/// The stack before, instructions that all do the same, and the stack after.
#[rustfmt::skip]
const STACKS: [(&str, &str, &str); 39] = [
    ("", "nop, goto +3, goto_w +5, iinc 0 1", ""),
    ("I", "nop, goto +3, goto_w +5, iinc 0 1", "I"),
    ("", "aconst_null, aload 0, aload_0, aload_1, aload_2, aload_3", "A"),
    ("", "iconst_m1, iconst_0, iconst_1, iconst_2, iconst_3, iconst_4, iconst_5", "I"),
    ("", "bipush 1, sipush 1, ldc 1, ldc_w 1, iload 0, iload_0, iload_1, iload_2, iload_3", "I"),
    ("", "lconst_0, lconst_1, ldc2_w 3, lload 0, lload_0, lload_1, lload_2, lload_3", "Jj"),
    ("", "fconst_0, fconst_1, fconst_2, ldc 2, ldc_w 2, fload 0", "F"),
    ("", "fload_0, fload_1, fload_2, fload_3, wide fload 0", "F"),
    ("", "dconst_0, dconst_1, ldc2_w 5, dload 0, dload_0, dload_1, dload_2, dload_3", "Dd"),
    ("", "wide iload 0", "I"),
    ("", "wide lload 0", "Jj"),
    ("", "wide dload 0", "Dd"),
    ("", "wide aload 0", "A"),
    ("AI", "pop, ifeq +3, ifne +3, iflt +3, ifge +3, ifgt +3, ifle +3, istore 0", "A"),
    ("AII", "pop2, if_icmpeq +3, if_icmpne +3, if_icmplt +3, if_icmpge +3, if_icmpgt +3", "A"),
    ("AIAA", "if_icmple +3, if_acmpeq +3, if_acmpne +3", "AI"),
    ("IA", "ifnull +3, ifnonnull +3, astore 0", "I"),
    ("AI", "dup", "AII"),
    ("AFI", "dup_x1", "AIFI"),
    ("AJjI", "dup_x2", "AIJjI"),
    ("AJj", "dup2", "AJjJj"),
    ("AFJj", "dup2_x1", "AJjFJj"),
    ("ADdJj", "dup2_x2", "AJjDdJj"),
    ("AFI", "swap", "AIF"),
    ("FII", "iadd, isub, imul, idiv, irem, ishl, ishr, iushr, iand, ior, ixor", "FI"),
    ("FJjJj", "ladd, lsub, lmul, ldiv, lrem, land, lor, lxor", "FJj"),
    ("FJjI", "lshl, lshr, lushr", "FJj"),
    ("IFF", "fadd, fsub, fmul, fdiv, frem", "IF"),
    ("IDdDd", "dadd, dsub, dmul, ddiv, drem", "IDd"),
    ("FI", "ineg, i2b, i2c, i2s", "FI"),
    ("IJj", "lneg", "IJj"),
    ("IF", "fneg", "IF"),
    ("IDd", "dneg", "IDd"),
    ("AI", "i2l", "AJj"),
    ("AF", "f2i", "AI"),
    ("FJjJj", "lcmp", "FI"),
    ("AFF", "fcmpl, fcmpg", "AI"),
    ("AJj", "l2d", "ADd"),
    ("ADdDd", "dcmpl, dcmpg", "AI"),
];

/// The rest of the conversions.
const CONVERSIONS: [(&str, &str, &str); 9] = [
    ("I", "i2f", "F"),
    ("I", "i2d", "Dd"),
    ("Jj", "l2i", "I"),
    ("Jj", "l2f", "F"),
    ("F", "f2l", "Jj"),
    ("F", "f2d", "Dd"),
    ("Dd", "d2i", "I"),
    ("Dd", "d2l", "Jj"),
    ("Dd", "d2f", "F"),
];

/// Switches, whose padding depends on where they stand.
const SWITCHES: [(&str, &str); 2] = [
    (
        "fconst_1; iconst_0; tableswitch 0 on default on; on: nop",
        "F",
    ),
    (
        "fconst_1; iconst_0; lookupswitch 0 on default on; on: nop",
        "F",
    ),
];

#[test]
fn each_instruction_gives_its_kinds() {
    let mut met = HashSet::new();
    let mut meet = |listing: &'static str| {
        let all = listing.split([';', ',']).map(str::trim);
        met.extend(all.filter_map(|one| one.split(' ').next()));
    };
    for (before, listing, stack) in STACKS.into_iter().chain(CONVERSIONS) {
        for instruction in listing.split(", ") {
            let whole = setup(before) + instruction;
            assert_eq!(after(&whole).1, stack, "{whole}");
        }
        meet(listing);
    }
    for (listing, stack) in SWITCHES {
        assert_eq!(after(listing).1, stack, "{listing}");
        meet(listing);
    }
    LOCALS.iter().for_each(|row| meet(row.0));
    let all = (0..=255).filter_map(instructions::of_opcode);
    let missing: Vec<_> = all
        .map(|one| one.name)
        .filter(|name| !met.contains(name))
        .collect();
    let returns = [
        "ireturn", "lreturn", "freturn", "dreturn", "areturn", "return",
    ];
    assert_eq!(missing, returns);
}

/// A listing, and what the locals are after it, without the last ones that are not known.
const LOCALS: [(&str, &str); 26] = [
    ("nop", ""),
    ("iconst_0; istore 1", "?I"),
    ("iconst_0; istore_0; iconst_0; istore_2", "I?I"),
    ("iconst_0; istore_1; iconst_0; istore_3", "?I?I"),
    ("lconst_0; lstore_0; lconst_0; lstore_2", "JjJj"),
    ("lconst_0; lstore_1; fconst_0; fstore_0", "FJj"),
    (
        "fconst_0; fstore_1; fconst_0; fstore_2; fconst_0; fstore_3",
        "?FFF",
    ),
    ("dconst_0; dstore_1", "?Dd"),
    ("dconst_0; dstore_0; dconst_0; dstore_2", "DdDd"),
    ("aconst_null; astore_0; aconst_null; astore_1", "AA"),
    ("aconst_null; astore_2; aconst_null; astore_3", "??AA"),
    ("fconst_0; fstore 3", "???F"),
    ("lconst_0; lstore 2", "??Jj"),
    ("dconst_0; dstore 0", "Dd"),
    ("lconst_0; lstore_3; dconst_0; dstore_3", "???Dd"),
    ("iinc 3 1; wide iinc 2 1000", "??II"),
    (
        "iconst_0; wide istore 3; aconst_null; wide astore 0",
        "A??I",
    ),
    ("lconst_0; wide lstore 1; fconst_0; wide fstore 3", "?JjF"),
    ("dconst_0; wide dstore 2", "??Dd"),
    // Half a long, below and above, and both at once.
    ("lconst_0; lstore_1; iconst_0; istore_1", "?I"),
    ("lconst_0; lstore_1; iconst_0; istore_2", "??I"),
    (
        "lconst_0; lstore_0; dconst_0; dstore_2; lconst_0; lstore_1",
        "?Jj",
    ),
    ("lconst_0; lstore_1; iinc 2 1", "??I"),
    ("lconst_0; lstore_1; dconst_0; dstore_1", "?Dd"),
    // By the instruction, whatever the word was.
    ("fconst_0; istore_0; iconst_0; astore_1", "IA"),
    // Moved through the stack by ints, a long is two ints.
    ("lconst_1; istore_0; istore_1", "II"),
];

#[test]
fn each_store_gives_its_kinds() {
    for (listing, locals) in LOCALS {
        assert_eq!(after(listing).0, format!("{locals:?<5}"), "{listing}");
    }
}

#[test]
fn half_a_value_is_not_known() {
    for (listing, stack) in [
        ("lconst_0; pop", "?"),
        ("lconst_0; pop; iconst_0", "?I"),
        ("dconst_0; dup", "Dd?"),
        ("dconst_0; swap", "??"),
        ("dconst_0; swap; swap", "??"),
        ("lconst_0; dup_x1", "?Jj"),
        ("lconst_0; iconst_0; swap", "?I?"),
        ("lconst_0; iconst_0; dup_x1", "?I?I"),
        ("lconst_0; iconst_0; dup2", "JjI?I"),
        ("lconst_0; lconst_1; dup_x2", "???Jj"),
        ("lconst_0; lconst_1; dup2_x1", "?Jj?Jj"),
        ("iconst_0; lconst_0; dup2_x1; pop", "JjI?"),
        ("lconst_0; dconst_0; dup2_x2; pop2", "DdJj"),
        ("lconst_0; iadd", "I"),
        ("lconst_0; lconst_0; iadd", "JjI"),
        ("lconst_0; iconst_0; iadd", "?I"),
    ] {
        assert_eq!(after(listing).1, stack, "{listing}");
    }
}

#[test]
fn arguments_are_what_the_descriptor_says() {
    for (text, words, locals) in [
        ("()V", 0, "?????????"),
        ("(IJ)V", 3, "IJj??????"),
        ("(ZBCSI)V", 5, "IIIII????"),
        ("(FD[J)V", 4, "FDdA?????"),
        ("(La/JD;J[[LI;[[[DF)V", 6, "AJjAAF???"),
        ("(DDDDF)J", 9, "DdDdDdDdF"),
    ] {
        let code = record(b"CD", &[0xB1]);
        let sheet = [sizes(0, 9), code, arguments(&vec![0; words])].concat();
        assert_eq!(letters(Kinds::at_start(&sheet).locals()), "?????????");
        assert_eq!(descriptor(&sheet), None);
        let sheet = with_descriptor(text.as_bytes(), &sheet);
        assert!(Walk::open(sheet.clone()).is_ok(), "{text}");
        assert_eq!(descriptor(&sheet), Some(text.as_bytes()));
        assert_eq!(letters(Kinds::at_start(&sheet).locals()), locals, "{text}");
    }
}

#[test]
fn a_caught_exception_is_a_reference() {
    // The handler is the next instruction, and the depth is 1 after a quotient too.
    for (listing, stack) in [
        ("iconst_1; iconst_0; idiv; at: nop", "A"),
        ("iconst_1; iconst_0; irem; at: nop", "A"),
        ("iconst_1; iconst_1; idiv; at: nop", "I"),
        ("iconst_1; iconst_1; irem; at: nop", "I"),
        ("iconst_1; lconst_1; lconst_0; ldiv; at: nop", "A"),
        ("lconst_1; lconst_1; ldiv; at: nop", "Jj"),
        ("lconst_1; ldc2_w 3; ldiv; at: nop", "Jj"),
        ("lconst_1; lconst_0; lrem; at: nop", "A"),
    ] {
        let listing = format!("{listing}; return");
        let (code, labels) = assembler::assemble_with_labels(&listing).unwrap();
        let at = labels["at"] as u16;
        // A long whose low word is 0 is not 0, nor one whose high word is.
        let long = constant(3, 5, &[0, 0, 0, 1, 0, 0, 0, 0]);
        let sheet = sheet_with(9, 0, &code, &[long, handler([0, at, at, 0])]);
        assert_eq!(walked(sheet).1, stack, "{listing}");
    }
}
