//! Sheets that are read from their bytes, and bytes that are none.

use bytecode::sheet::{Constant, ConstantKind, Sheet};
use bytecode::values::{self, Kind};

fn bytes(digits: &str) -> Vec<u8> {
    values::bytes(&digits.replace(' ', "")).unwrap()
}

#[test]
fn each_record_is_read() {
    let bytes = bytes(
        "4C4D 0004 00020103 4453 0003 282956 4344 0002 00B1 4B49 0007 0009 04 3DCCCCCD \
         4B49 000B 0001 05 FFFFFFFFFFFFFFFE 4B49 0007 0000 07 00000002 \
         4558 0008 0001000200000009 4558 0008 FFFF000000000000 4152 0008 00000005 80000000",
    );
    let constant = |index, kind, bits| Constant { index, kind, bits };
    let expected = Sheet {
        max_stack: 2,
        max_locals: 259,
        descriptor: Some(b"()V".to_vec()),
        code: vec![0x00, 0xB1],
        constants: vec![
            constant(9, ConstantKind::Value(Kind::Float), 0x3DCC_CCCD),
            constant(1, ConstantKind::Value(Kind::Long), -2_i64 as u64),
            constant(0, ConstantKind::Class, 2),
        ],
        handlers: vec![[1, 2, 0, 9], [0xFFFF, 0, 0, 0]],
        arguments: vec![5, 0x8000_0000],
    };
    assert_eq!(Sheet::read(&bytes).as_ref(), Some(&expected));
    assert_eq!(expected.bytes(), bytes);
    // No shorter or longer row of bytes is a sheet.
    for length in 0..bytes.len() {
        assert_eq!(Sheet::read(&bytes[..length]), None, "{length}");
    }
    assert_eq!(Sheet::read(&[&bytes[..], &[0]].concat()), None);
}

#[test]
fn what_are_no_records_in_their_order_is_not_read() {
    const SIZES: &str = "4C4D 0004 00020001 ";
    const CODE: &str = "4344 0001 B1 ";
    const ARGUMENTS: &str = "4152 0000 ";
    const DESCRIPTOR: &str = "4453 0003 282956 ";
    const CONSTANT: &str = "4B49 0007 0001 03 00000001 ";
    const HANDLER: &str = "4558 0008 0000000100000000 ";
    let before = [SIZES, CODE].concat();
    for rows in [
        &[CODE, ARGUMENTS][..],
        &[SIZES, ARGUMENTS],
        &[SIZES, CODE],
        &[SIZES, SIZES, CODE, ARGUMENTS],
        &[SIZES, DESCRIPTOR, DESCRIPTOR, CODE, ARGUMENTS],
        &[SIZES, CODE, DESCRIPTOR, ARGUMENTS],
        &[SIZES, CODE, CODE, ARGUMENTS],
        &[SIZES, CONSTANT, CODE, ARGUMENTS],
        &[SIZES, CODE, HANDLER, CONSTANT, ARGUMENTS],
        &[SIZES, CODE, ARGUMENTS, ARGUMENTS],
        &[SIZES, CODE, "4142 0000", ARGUMENTS],
        // Wrong lengths, and tags that do not suit theirs.
        &["4C4D 0003 000200", CODE, ARGUMENTS],
        &["4C4D 0005 0002000100", CODE, ARGUMENTS],
        &[&before, "4152 0003 000000"],
        &[&before, "4558 0007 00000001000000", ARGUMENTS],
        &[&before, "4558 0009 000000010000000000", ARGUMENTS],
        &[&before, "4B49 0007 0001 05 00000001", ARGUMENTS],
        &[&before, "4B49 000B 0001 03 0000000100000000", ARGUMENTS],
        &[&before, "4B49 0007 0001 08 00000001", ARGUMENTS],
        &[&before, "4B49 0002 0001", ARGUMENTS],
    ] {
        assert_eq!(Sheet::read(&bytes(&rows.concat())), None, "{rows:?}");
    }
    let whole = [
        SIZES, DESCRIPTOR, CODE, CONSTANT, HANDLER, HANDLER, ARGUMENTS,
    ]
    .concat();
    assert!(Sheet::read(&bytes(&whole)).is_some());
}

#[test]
fn the_records_at_the_start_are_read() {
    let reading = Sheet::read_start(&bytes("4C4D 0004 00020001 4344 0001 B1 4152 0001 00"));
    let sheet = Sheet {
        max_stack: 2,
        max_locals: 1,
        code: vec![0xB1],
        ..Sheet::default()
    };
    assert_eq!(reading.sheet, sheet);
    assert_eq!((reading.length, reading.is_whole), (13, false));
}
