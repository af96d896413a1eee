//! What `workbook make` says of a source that is wrong.
#![forbid(unsafe_code)]

mod common;

use common::folder::{assert_said, Folder};

/// The sentence of a source, after the name of its file.
#[track_caller]
fn wrong(source: &str, sentence: &str) {
    // A folder for each caller, as tests run at the same time.
    let line = std::panic::Location::caller().line();
    let folder = Folder::new(&format!("errors-{line}"));
    folder.write("a.txt", source);
    let made = folder.workbook(&["make", "a.txt", "-o", "a.sheet"]);
    assert_said(&made, 2, &format!("a.txt{sentence}"));
    assert_eq!(folder.read("a.sheet"), None);
}

/// The same for a listing, whose first line is line 4 of its source.
#[track_caller]
fn wrong_listing(listing: &str, sentence: &str) {
    let source = format!("max_stack 2\nmax_locals 1\ncode\n{listing}\n");
    wrong(&source, sentence);
}

#[test]
fn an_unknown_instruction() {
    let what = ":6: there is no instruction iretrun; did you mean ireturn?";
    wrong_listing("iconst_0 # nothing\n\n  iretrun", what);
    wrong_listing("jump +3", ":4: there is no instruction jump");
}

#[test]
fn a_number_that_does_not_fit() {
    wrong_listing("bipush 200", ":4: bipush takes -128 to 127, not 200");
    wrong_listing("bipush ten", ":4: bipush takes -128 to 127, not ten");
    let what = ":4: iload takes 0 to 255, not 300; wide iload takes 0 to 65535";
    wrong_listing("iload 300", what);
}

#[test]
fn a_number_that_is_none() {
    wrong(
        "max_stack two\nmax_locals 0\ncode\nreturn",
        ":1: max_stack takes 0 to 65535, not two",
    );
    wrong(
        "max_stack 2\nmax_locals 1\nargument int one\ncode\nreturn",
        ":3: one is no int",
    );
    wrong(
        "max_stack 2\nmax_locals 1\nargument int 3000000000\ncode\nreturn",
        ":3: 3000000000 is no int; an int is -2147483648 to 2147483647",
    );
}

#[test]
fn a_label_that_stands_twice() {
    wrong_listing(
        "again: nop\nnop\nagain: return",
        ":6: the label again stands twice, in lines 4 and 6",
    );
    wrong_listing(
        "again: nop; again: return",
        ":4: the label again stands twice in line 4",
    );
}

#[test]
fn a_branch_without_its_label() {
    wrong_listing("goto a b c", ":4: goto takes one label");
    wrong_listing("goto", ":4: goto takes one label");
    wrong_listing("goto nowhere", ":4: there is no label nowhere");
    wrong_listing(
        "again: iload_0\nifne agian\nreturn",
        ":5: there is no label agian; did you mean again?",
    );
    wrong_listing(
        "goto 9",
        ":4: there is no label 9; a distance has a sign, as +9",
    );
}

#[test]
fn a_switch_without_its_default() {
    wrong_listing(
        "iload_0\ntableswitch 1 one two\none: two: return",
        ":5: tableswitch ends with default and a label",
    );
    wrong_listing(
        "iload_0\nlookupswitch 1 one 5 two default\none: two: return",
        ":5: lookupswitch ends with default and a label",
    );
}

#[test]
fn an_unknown_line() {
    wrong(
        "# a\nmax_stak 2\nmax_locals 1\ncode\nreturn",
        ":2: no line begins with max_stak; did you mean max_stack?",
    );
    wrong("public static int sum(", ":1: no line begins with public");
    wrong(
        "max_stack 2\nargument 5\nmax_locals 1\ncode\nreturn",
        ":2: argument takes a kind and a value, as argument int 5",
    );
    wrong_listing(
        "nop\nargument int 5",
        ":5: argument stands before the line that says code",
    );
}

#[test]
fn a_line_that_is_missing() {
    wrong(
        "# a\nmax_locals 1\ncode\nreturn",
        ":3: there is no line with max_stack before code",
    );
    wrong(
        "# a\nmax_stack 1\ncode\nreturn",
        ":3: there is no line with max_locals before code",
    );
    wrong(
        "# a\nmax_stack 1\nmax_locals 1\n",
        ":3: the source ends without a line that says code",
    );
    wrong(
        "# a\nmax_stack 1\nmax_locals 1\n  iload_0\n  ireturn\n",
        ":4: iload_0 stands below a line that says code",
    );
}

#[test]
fn a_line_that_stands_twice() {
    wrong(
        "max_stack 1\nmax_locals 1\nmax_stack 2\ncode\nreturn",
        ":3: max_stack stands twice, in lines 1 and 3",
    );
}

#[test]
fn a_handler_without_its_label() {
    wrong(
        "max_stack 2\nmax_locals 1\nhandler try end cought any\ncode\ntry: idiv\nend: caught: return",
        ":3: there is no label cought; did you mean caught?",
    );
}

#[test]
fn a_character_that_is_not_ascii() {
    wrong(
        "# caf\u{E9}\nmax_stack 2\n",
        ":1: 'é' is no ASCII character, and a source has no others",
    );
    wrong_listing(
        "bipush \u{2212}1",
        ":4: '−' is no ASCII character, and a source has no others",
    );
}

#[test]
fn nothing_but_comments() {
    wrong(
        "# Adds 3 and 4.\n\n   # And no more.\n",
        ": the source has no line; a method has max_stack, max_locals and code",
    );
    wrong("", ": is empty");
}

#[test]
fn a_code_that_is_too_long() {
    let listing = "nop\n".repeat(65_536);
    wrong_listing(&listing, ":65539: the code has more than 65535 bytes");
}

#[test]
fn control_characters_and_long_words_are_not_echoed() {
    let word = "\u{1B}[31m".to_string() + &"x".repeat(60);
    let what = format!(":4: there is no instruction ?[31m{}...", "x".repeat(35));
    wrong_listing(&word, &what);
}
