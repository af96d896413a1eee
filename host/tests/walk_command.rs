//! `workbook walk`, by lines of keys.
#![forbid(unsafe_code)]

mod common;

use common::folder::{assert_said, Folder};
use common::{accepted_samples, sample, sample_path};
use workbook_host::{Answer, Refusal, Walk};

/// The screens for a file of a folder and lines of keys.
#[track_caller]
fn screens(folder: &Folder, file: &str, keys: &str) -> Vec<String> {
    let output = folder.workbook_given(&["walk", file], keys.as_bytes());
    assert_eq!(String::from_utf8_lossy(&output.stderr), "");
    assert_eq!(output.status.code(), Some(0));
    let text = String::from_utf8(output.stdout).unwrap();
    assert!(!text.contains(|letter: char| letter.is_control() && letter != '\n'));
    let screens = text.strip_suffix("\n\n").unwrap().split("\n\n");
    screens.map(str::to_string).collect()
}

/// The same for a sample.
#[track_caller]
fn of_sample(name: &str, keys: &str) -> Vec<String> {
    let folder = Folder::new(&format!("walk-{name}-{}", keys.len()));
    folder.write("a.sheet", sample(name).sheet);
    screens(&folder, "a.sheet", keys)
}

/// The number of the step and the message after the last of these keys.
#[track_caller]
fn last(name: &str, keys: &str) -> (String, String) {
    let screens = of_sample(name, keys);
    let mut lines = screens.last().unwrap().lines();
    let (first, last) = (lines.next().unwrap(), lines.next_back().unwrap());
    // Without what the method returns.
    let step = first.split(',').next().unwrap();
    (step.to_string(), last.to_string())
}

#[track_caller]
fn assert_last(name: &str, keys: &str, step: u64, message: &str) {
    let expected = (format!("step {step}"), message.to_string());
    assert_eq!(last(name, keys), expected, "{name}: {keys:?}");
}

const SECOND: &str = "\
step 2
       0: iconst_3
       1: iconst_4
>      2: iadd
       3: ireturn
locals: none
operand stack, top first:
* 1: 4 (00000004)
  0: 3 (00000003)
";

#[test]
fn a_source_and_its_sheet_have_the_same_screens() {
    let start = "\
step 0
>      0: iconst_3
       1: iconst_4
       2: iadd
       3: ireturn
locals: none
operand stack, top first: empty
this is the start; ? shows the keys";
    let screens_of = of_sample("printed", "f\nf\nf\nb\n");
    assert_eq!(screens_of[0], start);
    assert_eq!(screens_of[2], format!("{SECOND}iconst_4 was executed"));
    assert_eq!(screens_of[4], format!("{SECOND}iadd was taken back"));
    let folder = Folder::new("walk-source");
    let source = std::fs::read(sample_path("printed.txt")).unwrap();
    folder.write("a.txt", source);
    assert_eq!(screens(&folder, "a.txt", "f\nf\nf\nb\n"), screens_of);
}

#[test]
fn each_key_and_its_message() {
    let executed = "iadd was executed";
    for forward in ["f", "n", "space", "right", "", " ", "F", "forward"] {
        assert_last("printed", &format!("f\nf\n{forward}\n"), 3, executed);
    }
    for back in ["b", "left", "back"] {
        let keys = format!("f\nf\n{back}\n");
        assert_last("printed", &keys, 1, "iconst_4 was taken back");
    }
    assert_last("printed", "f\nhome\n", 0, "this is the start");
    assert_last("printed", "b\n", 0, "this is the start");
    assert_last("printed", "g 0\n", 0, "this is the start");
    assert_last("printed", "r\n", 3, "returned 7");
    assert_last("printed", "END\n", 3, "returned 7");
    assert_last("printed", "g 2\n", 2, "this is step 2");
    assert_last("printed", "r\ng1\n", 1, "this is step 1");
    let none = "there is no step 4, because the method ends here: returned 7";
    assert_last("printed", "g 4\n", 3, none);
    let none = "there is no key x; ? shows the keys";
    assert_last("printed", "f\nx\n", 1, none);
    assert_last(
        "printed",
        "g\n",
        0,
        "g takes the number of a step, as in g 7",
    );
    let number = "ten is not the number of a step";
    assert_last("printed", "g ten\n", 0, number);
    for quit in ["q", "quit", "\u{3}", "\u{4}"] {
        assert_eq!(of_sample("printed", &format!("f\n{quit}\nf\n")).len(), 2);
    }
    // The last line needs no end, and no keys at all are a session too.
    assert_last("printed", "f\nf", 2, "iconst_4 was executed");
    assert_eq!(of_sample("printed", "").len(), 1);
    let keys = of_sample("printed", "f\nf\n?\n").pop().unwrap();
    let keys = keys.strip_prefix(SECOND).unwrap();
    assert!(keys.starts_with("right, space, n, f or Enter   one step forward\n"));
    assert!(
        keys.ends_with("q, Ctrl-C or Ctrl-D           quit"),
        "{keys}"
    );
}

#[test]
fn each_end_and_its_message() {
    assert_last("division_by_zero", "r\n", 2, "threw an ArithmeticException");
    let refused = "The instruction puts more on the operand stack than max_stack allows.";
    assert_last("refused_stack", "r\n", 1, refused);
    let none = format!("there is no step 9, because the method ends here: {refused}");
    assert_last("refused_stack", "g 9\n", 1, none.trim_end_matches('.'));
    assert_last("long_sum", "r\n", 4, "returned 4294967296L");
    assert_last("swap", "r\nr\nf\n", 4, "returned nothing");
    let caught = "idiv threw an ArithmeticException, and the handler at offset 7 caught it";
    assert_last("catch_division", "g 3\nf\n", 4, caught);
    let endless = "the method has not ended, and a walk goes no further than step 1000000";
    assert_last("endless", "r\n", 1_000_000, endless);
    assert_last("endless", "r\nf\n", 1_000_000, endless);
    assert_last("endless", "g 1000001\n", 1_000_000, endless);
    assert_last("endless", "r\nb\n", 999_999, "goto was taken back");
}

#[test]
fn the_last_step_of_a_walk_may_be_the_last_of_a_method() {
    let folder = Folder::new("walk-longest");
    // Three steps for each number, and one more.
    let code = "again:\niinc 0 -1\niload_0\nifne again\nnop\nreturn\n";
    let source = format!("max_stack 1\nmax_locals 1\nargument int 333333\ncode\n{code}");
    folder.write("a.txt", source);
    let screen = screens(&folder, "a.txt", "r\n").pop().unwrap();
    assert!(screen.starts_with("step 1000000\n"), "{screen}");
    assert!(screen.ends_with("\nreturned nothing"), "{screen}");
}

#[test]
fn parts_that_do_not_fit_are_scrolled() {
    let folder = Folder::new("walk-scrolled");
    let nops = "nop\n".repeat(100);
    let source = format!("max_stack 1\nmax_locals 90\ncode\n{nops}iconst_5\nistore 80\nreturn\n");
    folder.write("a.txt", source);
    let screen = screens(&folder, "a.txt", "g 102\n").pop().unwrap();
    let lines: Vec<&str> = screen.lines().collect();
    assert_eq!(lines.len(), 24);
    assert!(lines.contains(&">    103: return"), "{screen}");
    assert!(lines.contains(&"* 80: 5 (00000005)"), "{screen}");
    assert!(screen.contains("\nlocals (lines "), "{screen}");
}

#[test]
fn a_jump_into_an_instruction_has_a_cursor() {
    let folder = Folder::new("walk-inside");
    // GOTO to the second byte of a BIPUSH, which is NOP, and then RETURN.
    let code = [0xA7, 0x00, 0x04, 0x10, 0x00, 0xB1];
    folder.write("a.sheet", common::sheet(1, 0, &code, &[]));
    let screen = screens(&folder, "a.sheet", "f\n").pop().unwrap();
    let inside = "\n       3: bipush        0\n>      4: nop\n       5: return\n";
    assert!(screen.contains(inside), "{screen}");
}

#[test]
fn a_walk_stands_where_a_run_stands() {
    for sample in accepted_samples() {
        let start = Walk::open(sample.sheet.clone()).unwrap();
        let mut walk = start.clone();
        for steps in 0..1_000 {
            let reached = start.run(steps);
            let place = (reached.state.pc, reached.state.depth, &reached.frame[..]);
            assert_eq!(place, (walk.pc(), walk.depth(), walk.frame()));
            assert_eq!(reached.ran.steps, steps, "{}", sample.name);
            if walk.forward() != Answer::Granted {
                break;
            }
        }
        // The same by keys, without the message.
        let (count, folder) = (walk.count().min(30), Folder::new("walk-run"));
        folder.write("a.sheet", &sample.sheet);
        let keys = "f\n".repeat(count as usize) + &format!("r\ng {count}\n");
        let screens = screens(&folder, "a.sheet", &keys);
        let without = |screen: &str| screen.rsplit_once('\n').unwrap().0.to_string();
        let (by_step, by_number) = (&screens[count as usize], screens.last().unwrap());
        assert_eq!(without(by_step), without(by_number), "{}", sample.name);
    }
}

#[test]
fn what_is_no_walk_is_said() {
    let folder = Folder::new("walk-wrong");
    let usage = "usage: workbook walk FILE [METHOD[DESCRIPTOR] ARGUMENT ...]";
    assert_said(&folder.workbook(&["walk"]), 2, usage);
    let option = format!("walk has no option --steps; {usage}");
    assert_said(&folder.workbook(&["walk", "--steps"]), 2, &option);
    let input = format!("the keys come from standard input, so the file needs a name; {usage}");
    assert_said(&folder.workbook(&["walk", "-"]), 2, &input);
    let missing = "a.sheet: there is no such file";
    assert_said(&folder.workbook(&["walk", "a.sheet"]), 2, missing);
    folder.write("a.txt", "max_stack 1\nmax_locals 0\ncode\nnoop\n");
    let wrong = folder.workbook(&["walk", "a.txt"]);
    assert_eq!(wrong.status.code(), Some(2));
    folder.write("a.class", [0xCA, 0xFE, 0xBA, 0xBE]);
    let class = "a.class: the class file is damaged: it ends at byte 4, inside of a part";
    assert_said(&folder.workbook(&["walk", "a.class"]), 2, class);
    folder.write("a.sheet", sample("refused_handler").sheet);
    let refusal = Refusal::SHEET_HANDLER;
    let refused = format!("a.sheet: the sheet is refused: {refusal}");
    assert_said(&folder.workbook(&["walk", "a.sheet"]), 1, &refused);
}

#[test]
fn what_a_method_returns_is_shown() {
    let screens = of_sample("byte_return", "f\n");
    assert!(
        screens[1].starts_with("step 1, returns byte\n"),
        "{screens:?}"
    );
    let screens = of_sample("loop", "f\n");
    assert!(screens[1].starts_with("step 1\n"), "{screens:?}");
}
