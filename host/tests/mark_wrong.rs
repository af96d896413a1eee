//! `workbook mark`: the sentence on the first answer that is wrong.
#![forbid(unsafe_code)]

mod common;

use common::marks::{folder, wrong};

/// Files, the lines of answers, and the sentence.
const WRONG: &str = "\
loop.sheet | step 8; local 1 = 7; step 2; local 1 = 2 | step 2: local 1 is 0, not 2
loop.sheet | step 4; stack = 5; local 2 = 9; local 1 = 8 | step 4: local 1 is 0, not 8
loop.sheet | step 4; local 2 = 0x2 | step 4: local 2 is 1 (00000001), not 0x2
loop.sheet | start; local 0 = 5 | start: local 0 is 4 (00000004), not 5
loop.sheet | step 1; local 3 = 5 | step 1: there is no local 3 that could be 5
loop.sheet | step 1; stack = 1 | step 1: stack place 0 is 0, not 1
loop.sheet | step 1; stack = 0.5 | step 1: stack place 0 is 0, not 0.5
loop.sheet | step 1; stack = empty | step 1: the stack has 1 place, and the values given fill 0
loop.sheet | step 1; stack = 0, 3 | step 1: the stack has 1 place, and 3 is too many
loop.sheet | step 2; stack = 3 | step 2: the stack is empty, and 3 is too many
long_sum.sheet | step 2; stack = -1 | step 2: stack place 0 is 4294967295L, not -1
long_sum.sheet | step 2; stack = 4294967295L | step 2: the stack has 3 places, and the values given fill 2
long_sum.sheet | step 2; stack = FFFFFFFF, 1, 1 | step 2: stack place 1 is 00000000, the high word of 4294967295L, not 1
long_sum.sheet | start; local 2 = 1L | start: local 2 is 1 (00000001), not 1L
loop.sheet | answer return 9 | the answer is return 10, not return 9
loop.sheet | answer return 9f | the answer is return 10, not return 9f
loop.sheet | answer return 0x9 | the answer is return 10 (0000000A), not return 0x9
loop.sheet | answer return 00000012 | the answer is return 10 (0000000A), not return 00000012
loop.sheet | answer return 012f | the answer is return 10, not return 012f
loop.sheet | answer void | the answer is return 10, not void
loop.sheet | answer throw | the answer is return 10, not throw
division_by_zero.sheet | answer return 0 | the answer is throw, not return 0
refused_stack.sheet | answer refused 7 | the answer is refused 8, not refused 7
refused_words.sheet | answer refused 7 | the answer is refused 31, not refused 7
long_sum.sheet | step 2; stack = 4294967295L, 5L | step 2: stack place 2 is 1, not 5L
void.txt | answer return 0 | the answer is void, not return 0
";

/// The same, where the kind of a place says how a number without a letter is read.
const KINDS: &str = "\
kinds.txt | start; local 0 = 1036831949 | start: local 0 is 0.1f, not 1036831949
kinds.txt | start; local 5 = NaN | start: local 5 is -1, not NaN
kinds.txt | start; local 7 = 7FC00000 | start: local 7 is NaN (7FC00001), not 7FC00000
kinds.txt | start; local 7 = 1 | start: local 7 is NaN (7FC00001), not 1
kinds.txt | start; local 6 = 1 | start: local 6 is null, not 1
kinds.txt | start; local 8 = 0.5 | start: local 8 is 0.0f (00000000), not 0.5
kinds.txt | start; local 1 = 0.5 | start: local 1 is 0.25, not 0.5
kinds.txt | start; local 1 = 0.25f | start: local 1 is 0.25, not 0.25f
kinds.txt | step 5; stack = 0.1f, 00000000, 3FD00000, 5L | step 5: stack place 3 is 4294967301L, not 5L
";

#[test]
fn the_first_wrong_place_is_told() {
    let folder = folder("mark-wrong");
    for row in WRONG.lines().chain(KINDS.lines()) {
        let [file, answers, sentence] = row.split(" | ").collect::<Vec<_>>()[..] else {
            panic!("{row}");
        };
        wrong(&folder, file, &answers.replace("; ", "\n"), sentence);
    }
}

#[test]
fn a_step_that_is_not_reached_is_wrong() {
    let folder = folder("mark-reached");
    let step = "step 90\nlocal 0 = 4";
    for (file, why) in [
        ("loop", "the method returns after 37 steps"),
        (
            "division_by_zero",
            "the method throws an exception that nothing catches after 2 steps",
        ),
        ("refused_stack", "the method is refused with 8 after 1 step"),
    ] {
        let sentence = format!("step 90 is not reached: {why}");
        wrong(&folder, &format!("{file}.sheet"), step, &sentence);
    }
    let refused = "the sheet is refused: 31: The file's descriptor is not parameter types in \
                   parentheses and then a return type, as (IJ)B is, or there are more or fewer \
                   argument words than it takes, two for a long or a double.";
    let sentence = format!("step 90 is not reached: {refused}");
    wrong(&folder, "refused_words.sheet", step, &sentence);
}
