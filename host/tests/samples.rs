//! Every sample: printed as `walksheet` prints it, and walked forward, back and by runs.
#![forbid(unsafe_code)]

mod common;

use common::memory::{Lent, Memory};
use common::{accepted_samples, refused, samples, Lengths, Sample, ANSWER_WORDS, STATE_WORDS};
use std::fmt::Write;
use workbook_host::{back, forward, load, run, step};
use workbook_host::{Answer, End, Loaded, Parts, ReturnType, State, Value};

/// What `walksheet` lends, and how far it walks.
const POOL: usize = 4_096;
const SLOTS: usize = 8_192;
const STEPS: usize = 1_600;
const SHEET: usize = 65_536;

/// The printed walk (docs/RULES.md), with the steps made by a function.
fn printed(sheet: &[u8], mut press: impl FnMut(Parts, &mut [u32], &mut State) -> Answer) -> String {
    let sheet = &sheet[..sheet.len().min(SHEET)];
    let (mut slots, mut kinds, mut words) = (vec![0; SLOTS], vec![0; POOL], vec![0; POOL]);
    let loaded = load(sheet, &mut slots, &mut kinds, &mut words);
    let Loaded {
        mut state,
        code,
        handlers,
        ..
    } = match loaded {
        Ok(loaded) => loaded,
        Err(refusal) => return format!("sheet {}\n", refusal.number()),
    };
    let parts = Parts {
        code: &sheet[code],
        kinds: &kinds,
        words: &words,
        handlers: &sheet[handlers],
    };
    let mut text = "step pc op depth top\n".to_string();
    for steps in 0..STEPS {
        let State {
            pc,
            depth,
            max_locals,
            ..
        } = state;
        let top = match depth {
            0 => "-".to_string(),
            _ => format!(
                "{:08X}",
                slots[usize::from(max_locals) + depth as usize - 1]
            ),
        };
        match press(parts, &mut slots, &mut state) {
            Answer::Granted => {
                writeln!(
                    text,
                    "{steps} {pc} {} {depth} {top}",
                    parts.code[pc as usize]
                )
                .unwrap();
            }
            Answer::Return(value) => return text + &printed_value(value),
            Answer::Throw => return text + "throw arithmetic\n",
            Answer::Refused(refusal) => return text + &format!("refused {}\n", refusal.number()),
            answer => panic!("a printed walk has no line for {answer}"),
        }
    }
    text + "stopped\n"
}

fn printed_value(value: Value) -> String {
    match value {
        Value::Int(int) => format!("return int {int:08X}\n"),
        Value::Float(bits) => format!("return float {bits:08X}\n"),
        Value::Reference(word) => format!("return ref {word:08X}\n"),
        Value::Long(long) => format!("return long {long:016X}\n"),
        Value::Double(bits) => format!("return double {bits:016X}\n"),
        Value::Void => "return void\n".to_string(),
    }
}

#[test]
fn steps_print_the_samples() {
    for sample in samples() {
        assert_eq!(
            printed(&sample.sheet, step),
            sample.printed,
            "{}",
            sample.name
        );
    }
}

#[test]
fn forward_presses_print_the_samples() {
    for sample in samples() {
        let mut log = vec![0xDEAD_BEEF; 10 * STEPS];
        let press = |parts: Parts, slots: &mut [u32], state: &mut State| {
            forward(parts, slots, &mut log, state)
        };
        assert_eq!(
            printed(&sample.sheet, press),
            sample.printed,
            "{}",
            sample.name
        );
    }
}

/// Lengths for a walk of a sample: the memory of `walksheet`, and a log for all its steps.
const LENGTHS: Lengths = Lengths {
    kinds: POOL,
    words: POOL,
    slots: SLOTS,
    log: 10 * STEPS,
    state: STATE_WORDS,
    answer: ANSWER_WORDS,
};

/// A state with every slot, the guards around them included.
type Stage = (State, Lent<u32>);

/// A walk by forward presses to its end.
struct Walked {
    /// What was loaded, with the slots as the load left them.
    memory: Memory,
    stages: Vec<Stage>,
    log: Lent<u32>,
    /// The answer to the press after the last stage.
    answer: Answer,
}

fn walked(sample: &Sample) -> Walked {
    let memory = Memory::loaded(&sample.sheet, LENGTHS);
    let (mut slots, mut log, mut state) =
        (memory.slots.clone(), memory.log.clone(), start(&memory));
    let mut stages = vec![(state, slots.clone())];
    loop {
        let answer = forward(memory.parts(), slots.part_mut(), log.part_mut(), &mut state);
        if answer != Answer::Granted {
            return Walked {
                memory,
                stages,
                log,
                answer,
            };
        }
        stages.push((state, slots.clone()));
    }
}

/// The state that a load gave, from its words.
fn start(memory: &Memory) -> State {
    let [max_stack, max_locals, pc, depth, low, high, return_type] = *memory.state.part() else {
        panic!("a state has seven words")
    };
    assert_eq!((pc, depth, low, high), (0, 0, 0, 0));
    let (max_stack, max_locals) = (max_stack as u16, max_locals as u16);
    State {
        max_stack,
        max_locals,
        pc,
        depth,
        count: 0,
        return_type: ReturnType::from_word(return_type),
    }
}

/// Fails where a walk without history does not stand at a stage.
#[track_caller]
fn stands_at((stage, stage_slots): &Stage, state: State, slots: &Lent<u32>, what: &str) {
    assert!(slots == stage_slots, "{what}");
    assert_eq!(state, State { count: 0, ..*stage }, "{what}");
}

/// The lines between the header and the last line of a printed walk.
fn printed_steps(printed: &str) -> usize {
    printed.lines().count() - 2
}

#[test]
fn back_presses_give_every_stage_again() {
    for sample in accepted_samples() {
        let walk = walked(&sample);
        assert_eq!(
            walk.stages.len() - 1,
            printed_steps(&sample.printed),
            "{}",
            sample.name
        );
        // Only the endless sample meets the log's end.
        assert_eq!(walk.answer == refused(12), sample.name == "endless");
        let (mut state, mut slots) = walk.stages.last().unwrap().clone();
        for (number, stage) in walk.stages.iter().enumerate().rev() {
            assert!(
                state == stage.0 && slots == stage.1,
                "{} at {number}",
                sample.name
            );
            assert_eq!(state.count, number as u64);
            let expected = if number == 0 {
                refused(13)
            } else {
                Answer::Granted
            };
            let answer = back(
                walk.memory.parts(),
                slots.part_mut(),
                walk.log.part(),
                &mut state,
            );
            assert_eq!(answer, expected, "{} at {number}", sample.name);
        }
        // The refused press at the start changed nothing.
        assert!(
            state == walk.stages[0].0 && slots == walk.stages[0].1,
            "{}",
            sample.name
        );
    }
}

#[test]
fn back_and_forward_again_gives_the_same_log() {
    for sample in accepted_samples() {
        let walk = walked(&sample);
        let (mut state, mut slots) = walk.stages[0].clone();
        // The log may hold anything at first.
        let mut other_log = walk.log.clone();
        other_log.part_mut().fill(0x1234_5678);
        for stage in &walk.stages[1..] {
            let again = forward(
                walk.memory.parts(),
                slots.part_mut(),
                other_log.part_mut(),
                &mut state,
            );
            assert_eq!(again, Answer::Granted);
            assert!(state == stage.0 && slots == stage.1, "{}", sample.name);
        }
        let again = forward(
            walk.memory.parts(),
            slots.part_mut(),
            other_log.part_mut(),
            &mut state,
        );
        assert_eq!(again, walk.answer);
        let used = 10 * (walk.stages.len() - 1);
        assert_eq!(
            other_log.part()[..used],
            walk.log.part()[..used],
            "{}",
            sample.name
        );
        assert!(other_log.part()[used..]
            .iter()
            .all(|&word| word == 0x1234_5678));
    }
}

#[test]
fn a_run_of_so_many_steps_ends_at_each_stage() {
    for sample in accepted_samples() {
        let walk = walked(&sample);
        for (number, stage) in walk.stages.iter().enumerate() {
            let (mut state, mut slots) = walk.stages[0].clone();
            let budget = number as u64;
            let ran = run(walk.memory.parts(), slots.part_mut(), &mut state, budget);
            let expected = (End::Stopped, budget);
            assert_eq!((ran.end, ran.steps), expected, "{}", sample.name);
            let what = format!("{} at {number}", sample.name);
            stands_at(stage, state, &slots, &what);
        }
    }
}

#[test]
fn a_run_with_budget_left_ends_where_the_walk_ends() {
    for sample in accepted_samples() {
        let walk = walked(&sample);
        let end = match walk.answer {
            // A run has no log, so it does not end here.
            answer if answer == refused(12) => continue,
            Answer::Return(value) => End::Return(value),
            Answer::Throw => End::Throw,
            Answer::Refused(refusal) => End::Refused(refusal),
            answer => panic!("the last press is answered {answer}"),
        };
        let steps = walk.stages.len() as u64 - 1;
        for budget in [steps + 1, steps + 2, u64::MAX] {
            let (mut state, mut slots) = walk.stages[0].clone();
            let ran = run(walk.memory.parts(), slots.part_mut(), &mut state, budget);
            assert_eq!((ran.end, ran.steps), (end, steps), "{}", sample.name);
            let last = walk.stages.last().unwrap();
            stands_at(last, state, &slots, &sample.name);
        }
    }
}

#[test]
fn a_step_is_a_forward_press_without_history() {
    for sample in accepted_samples() {
        let walk = walked(&sample);
        let (mut state, mut slots) = walk.stages[0].clone();
        for stage in &walk.stages[1..] {
            assert_eq!(
                step(walk.memory.parts(), slots.part_mut(), &mut state),
                Answer::Granted
            );
            stands_at(stage, state, &slots, &sample.name);
        }
        if walk.answer != refused(12) {
            assert_eq!(
                step(walk.memory.parts(), slots.part_mut(), &mut state),
                walk.answer
            );
        }
    }
}

#[test]
fn what_a_walk_only_reads_stays() {
    for sample in accepted_samples() {
        let walk = walked(&sample);
        let mut expected = Memory::loaded(&sample.sheet, LENGTHS);
        assert!(expected.slots == walk.stages[0].1);
        expected.code = walk.memory.code.clone();
        walk.memory.assert_equals(&expected, &sample.name);
    }
}
