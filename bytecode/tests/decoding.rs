//! The parts of a code: instructions, and bytes that are none.

use bytecode::assembler::assemble;
use bytecode::decoded::{pieces, Fields, Piece};

/// The offset and the length of each part, and the name where it is an instruction.
fn parts(listing: &str) -> Vec<(usize, usize, &'static str)> {
    let code = assemble(listing).unwrap();
    let name = |piece: &Piece| piece.instruction.as_ref().map_or("", |one| one.entry.name);
    let pieces = pieces(&code);
    pieces.iter().map(|p| (p.at, p.length, name(p))).collect()
}

#[test]
fn parts_follow_each_other() {
    for (listing, expected) in [
        ("", &[][..]),
        (
            "nop; bipush 1; wide iinc 1 2; wide iload 1; goto_w +0",
            &[
                (0, 1, "nop"),
                (1, 2, "bipush"),
                (3, 6, "wide"),
                (9, 4, "wide"),
                (13, 5, "goto_w"),
            ],
        ),
        (
            "tableswitch 5 +0 +0 default +0; lookupswitch default +0",
            &[(0, 24, "tableswitch"), (24, 12, "lookupswitch")],
        ),
        // No opcode, no instruction that is widened, impossible numbers.
        (
            "bytes BAC400; nop",
            &[(0, 1, ""), (1, 1, ""), (2, 1, "nop"), (3, 1, "nop")],
        ),
        (
            "bytes AA000000; numbers 0 2 1; nop",
            &[(0, 16, ""), (16, 1, "nop")],
        ),
        (
            "bytes AB000000; numbers 0 -1; nop",
            &[(0, 12, ""), (12, 1, "nop")],
        ),
        // Cut off by the end of the code.
        ("nop; bytes 1101", &[(0, 1, "nop"), (1, 2, "")]),
        ("bytes C4", &[(0, 1, "")]),
        ("bytes C48401", &[(0, 3, "")]),
        ("nop; bytes AA", &[(0, 1, "nop"), (1, 1, "")]),
        (
            "bytes AA000000; numbers 0 -2147483648 2147483647 0",
            &[(0, 20, "")],
        ),
        ("bytes AB000000; numbers 0 2147483647 0", &[(0, 16, "")]),
    ] {
        assert_eq!(parts(listing), expected, "{listing}");
    }
}

#[test]
fn operands_are_read_with_their_signs() {
    let code = assemble(
        "bipush -1; ldc_w 65535; goto -5; tableswitch -1 +4 default -4; wide iinc 65535 -1",
    );
    let pieces = pieces(&code.unwrap());
    let fields = pieces.into_iter().flat_map(|piece| piece.instruction);
    let fields: Vec<Fields> = fields.map(|instruction| instruction.fields).collect();
    let table = Fields::Table {
        low: -1,
        targets: vec![12],
        default: 4,
    };
    assert_eq!(table.targets(), [12, 4]);
    let numbers = |numbers: &[i32]| Fields::Numbers(numbers.to_vec());
    assert_eq!(
        fields,
        [
            numbers(&[-1]),
            numbers(&[65_535]),
            Fields::Branch(0),
            table,
            numbers(&[65_535, -1])
        ]
    );
}
