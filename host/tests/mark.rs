//! `workbook mark`: right answers, in every notation, and where a walk is ended.
#![forbid(unsafe_code)]

mod common;

use common::folder::assert_said;
use common::marks::{folder, right};

/// Locals of the source of kinds, and all that is right for each.
const NOTATIONS: &str = "\
0 | 1 place was | 0.1f 0.1 1e-1f 1E-1F .1 0x3DCCCCCD 3dcccccd
1 | 2 places were | 0.25 0.25d 2.5e-1 3FD0000000000000 0x3FD0000000000000
3 | 2 places were | 4294967301 4294967301L 0x100000005 0000000100000005
3 | 1 place was | 00000005 0x5
4 | 1 place was | 1 00000001 0x1 0b1
5 | 1 place was | -1 4294967295 0xFFFFFFFF FFFFFFFF ffffffff -0x1
6 | 1 place was | null 0 00000000 0x0
7 | 1 place was | NaN 7FC00001
8 | 1 place was | 0 0.0f 0.0 null +0 00000000
";

/// The operand stack of the source of kinds, with nothing taken from it.
const STACKS: [&str; 3] = [
    "0.1, 0.25, 4294967301, -1, null",
    "0.1f, 00000000, 3FD00000, 4294967301L, FFFFFFFF, 0x0",
    "3DCCCCCD, 0.25d, 0x5, 0x1, 4294967295, 0",
];

#[test]
fn a_value_is_right_in_every_notation() {
    let folder = folder("mark-notations");
    let kinds = |answers: &str, places: &str| right(&folder, "kinds.txt", answers, places);
    for row in NOTATIONS.lines() {
        let [local, places, texts] = row.split(" | ").collect::<Vec<_>>()[..] else {
            panic!("{row}");
        };
        for text in texts.split(' ') {
            kinds(&format!("start\nlocal {local} = {text}"), places);
        }
    }
    for stack in STACKS {
        kinds(&format!("step 5\nstack = {stack}"), "7 places were");
    }
    kinds("answer return FFFFFFFF", "1 place was");
    // An answer is one value, so that few digits may stand for two words.
    let long = "max_stack 2\nmax_locals 0\ncode\n    lconst_1\n    lreturn\n";
    folder.write("long.txt", long);
    for text in ["1", "1L", "0x1", "0x1L", "0000000000000001"] {
        let answers = format!("answer return {text}");
        right(&folder, "long.txt", &answers, "1 place was");
    }
}

#[test]
fn right_answers_are_counted() {
    let folder = folder("mark-right");
    let one_learner =
        "\u{FEFF}# a learner\r\n\r\nstep 4\r\n  local 1=0\r\n local 2 = 0x1 # one\r\n\
                       stack = empty\r\nstep 3\r\nstack=1\r\nstart\r\nlocal 0 = 4\r\n\
                       answer return 10\r\n";
    // A step may be begun again, and 0 is the start.
    let again = "step 4\nlocal 1 = 0\nstep 0\nlocal 0 = 4\nstep 4\nlocal 2 = 1";
    for (name, answers, places) in [
        ("loop.sheet", one_learner, "6 places were"),
        ("loop.sheet", again, "3 places were"),
        ("loop.sheet", "answer return 10", "1 place was"),
        ("division_by_zero.sheet", "answer throw", "1 place was"),
        ("wide.sheet", "answer return 1024", "1 place was"),
        ("refused_stack.sheet", "answer refused 8", "1 place was"),
        ("refused_words.sheet", "answer refused 31", "1 place was"),
        ("void.txt", "answer void", "1 place was"),
    ] {
        right(&folder, name, answers, places);
    }
    let stack = "step 2\nstack = 4294967295, 1";
    right(&folder, "long_sum.sheet", stack, "3 places were");
    let output = folder.workbook_given(&["mark", "loop.sheet", "-"], b"answer return 10");
    assert_eq!(output.stdout, b"all right: 1 place was compared\n");
}

#[test]
fn steps_end_a_walk_that_does_not_end() {
    let folder = folder("mark-steps");
    folder.write("a.txt", "step 4\nlocal 0 = 1");
    let four = folder.workbook(&["mark", "endless.sheet", "--steps", "3", "a.txt"]);
    let sentence = "step 4 is not compared: no more than 3 steps are taken; --steps takes more";
    assert_said(&four, 2, sentence);
    folder.write("a.txt", "answer return 1");
    let answer = folder.workbook(&["mark", "endless.sheet", "a.txt", "--steps", "1"]);
    let sentence =
        "the answer is not compared: the method has none after 1 step; --steps takes more";
    assert_said(&answer, 2, sentence);
    // The answer may come right behind the last step that is taken.
    folder.write("a.txt", "step 4\nlocal 0 = 1");
    let four = folder.workbook(&["mark", "printed.sheet", "a.txt", "--steps", "3"]);
    let sentence = "step 4 is not reached: the method returns after 3 steps";
    assert_said(&four, 1, sentence);
    folder.write("a.txt", "answer return 7");
    let answer = folder.workbook(&["mark", "printed.sheet", "a.txt", "--steps", "3"]);
    assert_eq!(answer.stdout, b"all right: 1 place was compared\n");
}
