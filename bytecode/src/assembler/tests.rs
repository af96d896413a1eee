//! Listings that are right and wrong, with each sentence.

use super::*;
use crate::values;

fn bytes(digits: &str) -> Vec<u8> {
    values::bytes(&digits.replace(' ', "")).unwrap()
}

#[test]
fn switches_are_padded_and_count_from_their_opcode() {
    let table = assemble("iload_0; tableswitch -1 a b default a; a: nop; b: return");
    let expected = "1AAA0000 00000017 FFFFFFFF 00000000 00000017 00000018 00B1";
    assert_eq!(table, Ok(bytes(expected)));
    let lookup = assemble("lookupswitch 5 +0 default -7");
    let expected = "AB000000 FFFFFFF9 00000001 00000005 00000000";
    assert_eq!(lookup, Ok(bytes(expected)));
}

#[test]
fn a_label_may_be_at_the_end() {
    let (code, labels) = assemble_with_labels("a: nop; b: iconst_1; ireturn; end:").unwrap();
    assert_eq!(code, [0x00, 0x04, 0xAC]);
    assert_eq!(labels, Labels::from([("a", 0), ("b", 1), ("end", 3)]));
}

#[test]
fn operands_fit() {
    let widest = "bipush -128; ldc 255; wide iinc 65535 -32768; numbers -1";
    let expected = "1080 12FF C484FFFF8000 FFFFFFFF";
    assert_eq!(assemble(widest), Ok(bytes(expected)));
}

/// The sentence of a listing that is wrong in its first line.
#[track_caller]
fn wrong(listing: &str, what: &str) {
    assert_eq!(assemble(listing), Err(Error::new(1, what)), "{listing}");
}

#[test]
fn an_instruction_has_a_name() {
    wrong(
        "iretrun",
        "there is no instruction iretrun; did you mean ireturn?",
    );
    wrong("IADD", "there is no instruction IADD; did you mean iadd?");
    wrong("jump again", "there is no instruction jump");
    wrong(
        "wide ilod 1",
        "there is no instruction ilod; did you mean iload?",
    );
    let long = "x".repeat(100);
    let what = format!("there is no instruction {}...", &long[..40]);
    wrong(&long, &what);
}

#[test]
fn numbers_fit_their_fields() {
    for (listing, what) in [
        ("bipush 200", "bipush takes -128 to 127, not 200"),
        ("bipush ten", "bipush takes -128 to 127, not ten"),
        ("bipush 0x1F", "bipush takes -128 to 127, not 0x1F"),
        ("sipush 32768", "sipush takes -32768 to 32767, not 32768"),
        ("ldc 256", "ldc takes 0 to 255, not 256"),
        ("ldc_w 65536", "ldc_w takes 0 to 65535, not 65536"),
        ("iload -1", "iload takes 0 to 255, not -1"),
        (
            "iload 256",
            "iload takes 0 to 255, not 256; wide iload takes 0 to 65535",
        ),
        ("iload 65536", "iload takes 0 to 255, not 65536"),
        (
            "iinc 0 128",
            "iinc takes -128 to 127, not 128; wide iinc takes -32768 to 32767",
        ),
        ("wide iload 65536", "wide iload takes 0 to 65535, not 65536"),
        (
            "numbers 4294967295",
            "numbers takes -2147483648 to 2147483647, not 4294967295",
        ),
        (
            "bipush 99999999999999999999",
            "bipush takes -128 to 127, not 99999999999999999999",
        ),
        ("bytes 123", "123 are no bytes in hexadecimal"),
        ("iadd 1", "iadd takes nothing after it"),
        ("bipush", "bipush takes one number"),
        ("bipush 1 2", "bipush takes one number"),
        (
            "iinc 1",
            "iinc takes two numbers, a local and what is added to it",
        ),
        (
            "wide",
            "wide stands before loads and stores of a local, and iinc",
        ),
        (
            "wide nop",
            "wide stands before loads and stores of a local, and iinc, not before nop",
        ),
    ] {
        wrong(listing, what);
    }
}

#[test]
fn a_branch_has_one_target() {
    for (listing, what) in [
        ("goto a b c", "goto takes one label"),
        ("ifeq", "ifeq takes one label"),
        ("goto nowhere", "there is no label nowhere"),
        (
            "agian: goto again",
            "there is no label again; did you mean agian?",
        ),
        (
            "goto 5",
            "there is no label 5; a distance has a sign, as +5",
        ),
        ("goto +x", "+x is no distance, as +3 and -3 are"),
        (
            "goto +32768",
            "goto takes -32768 to 32767, not +32768; goto_w reaches further",
        ),
        (
            "a: tableswitch 0 default a; ifeq -32769",
            "ifeq takes -32768 to 32767, not -32769",
        ),
    ] {
        wrong(listing, what);
    }
    let far = format!("far: bytes {}\nifne far", "00".repeat(32_769));
    let what = "ifne reaches -32768 to 32767 bytes, and far is -32769 bytes away";
    assert_eq!(assemble(&far), Err(Error::new(2, what)));
}

#[test]
fn a_switch_has_a_default() {
    let numbers = "takes -2147483648 to 2147483647, not";
    for (listing, what) in [
        (
            "tableswitch 1 +0",
            "tableswitch ends with default and a label",
        ),
        (
            "lookupswitch 1 +0 default",
            "lookupswitch ends with default and a label",
        ),
        (
            "tableswitch default +0",
            "tableswitch begins with its lowest index",
        ),
        (
            "lookupswitch 1 default +0",
            "lookupswitch takes a label after each key",
        ),
        ("a: lookupswitch 1 b default a", "there is no label b"),
        (
            "tableswitch a +0 default +0",
            &format!("tableswitch {numbers} a"),
        ),
        (
            "tableswitch 9223372036854775807 +0 +0 default +0",
            &format!("tableswitch {numbers} 9223372036854775807"),
        ),
        (
            "tableswitch 2147483647 +0 +0 default +0",
            &format!("tableswitch {numbers} 2147483648"),
        ),
    ] {
        wrong(listing, what);
    }
}

#[test]
fn a_label_stands_once() {
    let twice = assemble("a: nop\nb: nop\n\na: return");
    let what = "the label a stands twice, in lines 1 and 4";
    assert_eq!(twice, Err(Error::new(4, what)));
    wrong("on: nop; on: nop", "the label on stands twice in line 1");
    wrong(": nop", "a colon stands after the name of a label");
    wrong(
        "+a: nop",
        "the label +a begins with a sign, as a distance does",
    );
    wrong(
        "again : nop",
        "a label is one word with a colon, not again :",
    );
    wrong(
        "nop again: nop",
        "a label is one word with a colon, not nop again:",
    );
}

#[test]
fn an_error_has_its_line() {
    let late = assemble("nop\n\nnop; nop\n  a: nop; bipush 128");
    let what = "bipush takes -128 to 127, not 128";
    assert_eq!(late, Err(Error::new(4, what)));
    let most = assemble_within("nop\nnop", 8, 1).map(|(code, _)| code);
    assert_eq!(most, Err(Error::new(9, "the code has more than 1 bytes")));
}
