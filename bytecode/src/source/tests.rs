//! Sources that are right and wrong, with each sentence.

use super::*;

fn bytes(digits: &str) -> Result<Vec<u8>, Error> {
    Ok(values::bytes(&digits.replace(' ', "")).unwrap())
}

#[test]
fn a_source_gives_its_sheet() {
    let source = "# adds\nmax_stack 2 # two\nmax_locals 2\nconstant 1 int 5\nargument long -1\ncode\n  iconst_3; ireturn\n";
    let digits =
        "4C4D0004 00020002 43440002 06AC 4B490007 00010300000005 41520008 FFFFFFFFFFFFFFFF";
    assert_eq!(sheet(source), bytes(digits));
    let typed = "# typed\nmax_stack 1\nargument int 6\nmax_locals 1\ndescriptor (LA;)B # a byte\ncode\n  return\n";
    let digits = "4C4D0004 00010001 44530006 284C413B2942 43440001 B1 41520004 00000006";
    assert_eq!(sheet(typed), bytes(digits));
    let caught = "# caught\nmax_stack 2\nmax_locals 0\nconstant 1 class yes\nconstant 2 class no\nhandler 0 end at 2\nhandler a 3 4 any\ncode\n  iconst_1; iconst_0\na: idiv; ireturn; at: iconst_0; ireturn; end:\n";
    let digits =
        "4C4D0004 00020000 43440006 04036CAC03AC 4B490007 00010700000001 4B490007 00020700000000 \
                  45580008 0000000600040002 45580008 0002000300040000 41520000";
    assert_eq!(sheet(caught), bytes(digits));
    assert_eq!(
        sheet("# cut\nbytes 4C 4D\nbytes 00\n"),
        Ok(b"LM\0".to_vec())
    );
}

#[test]
fn lines_may_end_as_in_windows_and_the_first_need_not_be_a_comment() {
    let digits = "4C4D0004 00000001 43440001 B1 41520000";
    let source = "max_stack 0\r\nmax_locals 1\r\n\r\ncode\r\n  return # ends\r\n";
    assert_eq!(sheet(source), bytes(digits));
    assert_eq!(
        sheet("max_stack 0\nmax_locals 1\ncode\nreturn"),
        bytes(digits)
    );
}

#[track_caller]
fn wrong(source: &str, line: usize, what: &str) {
    assert_eq!(sheet(source), Err(Error::new(line, what)), "{source}");
}

#[test]
fn lines_before_code_have_their_form() {
    for (line, what) in [
        (
            "max_stak 1",
            "no line begins with max_stak; did you mean max_stack?",
        ),
        ("stack 1", "no line begins with stack"),
        ("code:", "code: stands below a line that says code"),
        ("Code", "no line begins with Code; did you mean code?"),
        (
            "code nop",
            "code stands alone in its line, and the instructions below it",
        ),
        ("nop", "nop stands below a line that says code"),
        ("max_stack", "max_stack takes one number"),
        ("max_stack 65536", "max_stack takes 0 to 65535, not 65536"),
        ("max_locals two", "max_locals takes 0 to 65535, not two"),
        ("descriptor ( )V", "descriptor takes one word, as (IJ)B"),
        ("descriptor", "descriptor takes one word, as (IJ)B"),
        (
            "argument byte 1",
            "there is no kind byte; there are int, long, float and double",
        ),
        (
            "argument 1",
            "argument takes a kind and a value, as argument int 5",
        ),
        ("argument int 1.5", "1.5 is no int"),
        ("constant x int 1", "constant takes 0 to 65535, not x"),
        (
            "constant 1 int",
            "constant takes an index, a kind and a value, as constant 1 int 5",
        ),
        (
            "constant 1 short 2",
            "there is no kind short; there are int, long, float, double and class",
        ),
        ("constant 1 class 1", "class takes yes or no, not 1"),
        (
            "handler 0 1 0",
            "handler takes a start, an end, a handler and a type, as handler try end caught any",
        ),
    ] {
        wrong(&format!("# a\n{line}\ncode\nnop"), 2, what);
    }
}

#[test]
fn every_method_has_its_sizes_and_code() {
    let what = "there is no line with max_stack before code";
    wrong("max_locals 1\ncode\nreturn", 2, what);
    let what = "there is no line with max_locals before code";
    wrong("max_stack 1\n\ncode\nreturn", 3, what);
    let what = "the source ends without a line that says code";
    wrong("max_stack 1\nmax_locals 1\n# end\n\n", 2, what);
    let what = "max_stack stands twice, in lines 1 and 3";
    wrong(
        "max_stack 1\nmax_locals 1\nmax_stack 1\ncode\nreturn",
        3,
        what,
    );
    let what = "descriptor stands twice, in lines 1 and 2";
    wrong("descriptor ()V\ndescriptor ()V\ncode\nreturn", 2, what);
    let what = "the source has no line; a method has max_stack, max_locals and code";
    for nothing in ["", "\n", "# adds\n   # 3 and 4\n\n"] {
        assert_eq!(sheet(nothing), Err(Error::of_whole(what)));
    }
}

#[test]
fn what_is_wrong_after_code_has_its_line_too() {
    let method = |listing: &str| format!("# a\nmax_stack 1 # one\nmax_locals 1\ncode\n{listing}");
    let what = "there is no instruction iretrun; did you mean ireturn?";
    wrong(&method("iconst_0 # 0\n\niretrun"), 7, what);
    let what = "the label a stands twice, in lines 5 and 6";
    wrong(&method("a: nop\na: nop"), 6, what);
    wrong(&method("nop\ncode"), 6, "a second line says code");
    let what = "argument stands before the line that says code";
    wrong(&method("nop\nargument int 1"), 6, what);
    let handled = |handler: &str| format!("max_stack 1\nmax_locals 1\n{handler}\ncode\none: nop");
    let what = "there is no label on; did you mean one?";
    wrong(&handled("handler 0 on 0 any"), 3, what);
    let what = "handler takes 0 to 65535, not 65536";
    wrong(&handled("handler 0 65536 0 any"), 3, what);
    let what = "a handler takes any or the index of a class, not all";
    wrong(&handled("handler 0 one 0 all"), 3, what);
}

#[test]
fn bytes_stand_alone() {
    wrong("bytes", 1, "bytes takes hexadecimal digits");
    wrong("bytes 4C\nbytes 4", 2, "4 are no bytes in hexadecimal");
    let what = "a source that begins with bytes has no other lines";
    wrong("bytes 4C\n\ncode", 3, what);
}

#[test]
fn a_source_is_ascii() {
    let what = "'\u{E9}' is no ASCII character, and a source has no others";
    wrong("# a\n# caf\u{E9}\ncode", 2, what);
    let what = "'\\u{feff}' is no ASCII character, and a source has no others";
    wrong("\u{FEFF}max_stack 1", 1, what);
}

#[test]
fn a_body_has_its_length_in_16_bits() {
    let typed = |length: usize| {
        let descriptor = "(".repeat(length);
        sheet(&format!(
            "# a\nmax_stack 0\nmax_locals 0\ndescriptor {descriptor}\ncode\nreturn"
        ))
    };
    assert!(typed(65_535).is_ok());
    let what = "the descriptor has more than 65535 bytes";
    assert_eq!(typed(65_536), Err(Error::new(4, what)));
    let coded = |length: usize| {
        let code = "nop\n".repeat(length);
        sheet(&format!("max_stack 0\nmax_locals 0\ncode\n{code}"))
    };
    assert!(coded(65_535).is_ok());
    let what = "the code has more than 65535 bytes";
    assert_eq!(coded(65_536), Err(Error::new(65_539, what)));
    let called = |length: usize| {
        let arguments = "argument int 0\n".repeat(length);
        sheet(&format!(
            "max_stack 0\nmax_locals 0\n{arguments}code\nreturn"
        ))
    };
    assert!(called(16_383).is_ok());
    let what = "the arguments have more than 16383 words";
    assert_eq!(called(16_384), Err(Error::new(16_386, what)));
}
