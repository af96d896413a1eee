//! A state of one sheet with the memory of another, and states and memory that no load made: each
//! call is answered, and nothing is written but what belongs to the frame and to the log's entry.
#![forbid(unsafe_code)]

mod common;

use common::memory::{Lent, Memory};
use common::random::Random;
use common::{accepted_samples, refused, Lesson, ENOUGH};
use std::collections::HashSet;
use workbook_host::records::handler;
use workbook_host::{back, step, Answer, End, Parts, Press, Ran, ReturnType, State};

/// What may be written by a call: the frame's slots and one entry of the log. Everything else, the
/// guards included, has to be as before.
fn only_the_frame_is_written(before: &Lesson, after: &Lesson) {
    let mut allowed = before.clone();
    allowed.state = after.state;
    let frame = before.state.frame().min(before.slots.part().len());
    allowed.slots.part_mut()[..frame].copy_from_slice(&after.slots.part()[..frame]);
    if let Some(entry) = entry(before) {
        allowed.log.part_mut()[entry..][..10].copy_from_slice(&after.log.part()[entry..][..10]);
    }
    assert!(*after == allowed);
    assert_eq!(after.state.max_stack, before.state.max_stack);
    assert_eq!(after.state.max_locals, before.state.max_locals);
    assert_eq!(after.state.return_type, before.state.return_type);
}

/// Where the next entry of the log begins, where there is room for it.
fn entry(lesson: &Lesson) -> Option<usize> {
    let first = usize::try_from(lesson.state.count).ok()?.checked_mul(10)?;
    (first.checked_add(10)? <= lesson.log.part().len()).then_some(first)
}

/// Makes every call on copies of a lesson, and compares them with each other.
fn answers(lesson: &Lesson) -> HashSet<Answer> {
    let [mut stepped, mut forwarded, mut backed] = [lesson.clone(), lesson.clone(), lesson.clone()];
    let step = stepped.step();
    let forward = forwarded.press(Press::Forward);
    let back = backed.press(Press::Back);
    for (after, answer) in [(&stepped, step), (&forwarded, forward), (&backed, back)] {
        only_the_frame_is_written(lesson, after);
        assert!(
            answer == Answer::Granted || after == lesson,
            "{answer} changed something"
        );
    }
    assert!(stepped.log == lesson.log && backed.log == lesson.log);
    assert!(matches!(back, Answer::Granted | Answer::Refused(_)));
    handlers_are_for_a_throw(lesson, &stepped, step);
    forward_is_a_step_with_history(lesson, &stepped, step, &forwarded, forward);
    one_step_of_a_run(lesson, &stepped, step);
    a_list_is_its_presses(lesson);
    HashSet::from([step, forward, back])
}

/// A lesson with no handlers lent.
fn without_handlers(lesson: &Lesson) -> Lesson {
    let mut lesson = lesson.clone();
    lesson.memory.lend_handlers(&[]);
    lesson
}

/// Handlers play no part but where a step without them is an exception. There it stays one, or is
/// caught, or the handler is outside of the code.
fn handlers_are_for_a_throw(lesson: &Lesson, stepped: &Lesson, step: Answer) {
    let mut bare = without_handlers(lesson);
    let answer = bare.step();
    if answer != Answer::Throw {
        assert_eq!((step, stepped.state), (answer, bare.state));
        assert!(stepped.slots == bare.slots);
        return;
    }
    assert!(step == Answer::Granted || step == Answer::Throw || step == refused(11));
    if step == Answer::Granted {
        let State { max_locals, .. } = lesson.state;
        let mut expected = lesson.slots.clone();
        expected.part_mut()[usize::from(max_locals)] = 1;
        assert!(stepped.slots == expected);
        assert_eq!(stepped.state.depth, 1);
    }
}

fn forward_is_a_step_with_history(
    lesson: &Lesson,
    stepped: &Lesson,
    step: Answer,
    forwarded: &Lesson,
    forward: Answer,
) {
    if step != Answer::Granted || entry(lesson).is_none() {
        let full = step == Answer::Granted;
        assert_eq!(forward, if full { refused(12) } else { step });
        return;
    }
    assert_eq!(forward, Answer::Granted);
    assert!(forwarded.slots == stepped.slots);
    assert_eq!(stepped.state.count, 0);
    let count = lesson.state.count + 1;
    assert_eq!(
        forwarded.state,
        State {
            count,
            ..stepped.state
        }
    );
    // Back gives what was there, and leaves the log.
    let mut returned = forwarded.clone();
    assert_eq!(returned.press(Press::Back), Answer::Granted);
    assert!(returned.slots == lesson.slots && returned.log == forwarded.log);
    assert_eq!(returned.state, lesson.state);
}

fn one_step_of_a_run(lesson: &Lesson, stepped: &Lesson, step: Answer) {
    let mut ran = lesson.clone();
    let Ran { end, steps, .. } = ran.run(1);
    only_the_frame_is_written(lesson, &ran);
    assert!(ran.log == lesson.log && ran.slots == stepped.slots);
    let (expected_end, expected_steps) = match step {
        Answer::Granted => (End::Stopped, 1),
        Answer::Return(value) => (End::Return(value), 0),
        Answer::Throw => (End::Throw, 0),
        Answer::Refused(refusal) => (End::Refused(refusal), 0),
        answer => panic!("a run has no end for {answer}"),
    };
    assert_eq!((end, steps), (expected_end, expected_steps));
    let at_once = matches!(end, End::Refused(refusal) if refusal.number() <= 3);
    let expected = if at_once {
        lesson.state
    } else {
        State {
            count: 0,
            ..stepped.state
        }
    };
    assert_eq!(ran.state, expected);

    let mut further = lesson.clone();
    assert!(further.run(60).steps <= 60);
    only_the_frame_is_written(lesson, &further);
    assert!(further.log == lesson.log);
}

fn a_list_is_its_presses(lesson: &Lesson) {
    let list = [
        Press::Back,
        Press::Forward,
        Press::Forward,
        Press::Back,
        Press::Forward,
    ];
    let [mut one_by_one, mut at_once] = [lesson.clone(), lesson.clone()];
    let answers: Vec<Answer> = list.iter().map(|&press| one_by_one.press(press)).collect();
    assert_eq!(at_once.press_all(&list), answers);
    assert!(at_once == one_by_one);
}

/// Lessons after some presses each: at the start, in the middle, and at the end.
fn stages(sheet: &[u8]) -> Vec<Lesson> {
    let press = |count| {
        let mut lesson = Lesson::new(sheet, 12);
        lesson.press_all(&vec![Press::Forward; count]);
        lesson
    };
    [0, 1, 3, 5, 20].map(press).into()
}

#[test]
fn a_state_with_the_memory_of_another_sheet_is_answered() {
    let lessons: Vec<Lesson> = accepted_samples()
        .iter()
        .flat_map(|sample| stages(&sample.sheet))
        .collect();
    let mut met = HashSet::new();
    for one in &lessons {
        for other in &lessons {
            // The state alone is another's; then also the slots, the log or what is only read.
            let state = one.state;
            met.extend(answers(&Lesson {
                state,
                ..other.clone()
            }));
            met.extend(answers(&Lesson {
                state,
                slots: one.slots.clone(),
                ..other.clone()
            }));
            met.extend(answers(&Lesson {
                state,
                log: one.log.clone(),
                ..other.clone()
            }));
        }
    }
    assert!(met.contains(&Answer::Granted));
    // Refusal 3 cannot come: max_stack is a part of the state, and so the sheet's own.
    for number in [2, 7, 9, 12, 13, 14] {
        assert!(met.contains(&refused(number)), "no refusal {number}");
    }
}

/// A memory of junk, and a state that sometimes suits it.
fn junk(random: &mut Random) -> Lesson {
    let (code, pc) = code(random);
    let mut memory = Memory::new(&code, ENOUGH);
    memory.code = 0..code.len();
    let pool = random.below(6);
    let kinds: Vec<u8> = (0..pool).map(|_| random.below(8) as u8).collect();
    memory.kinds = Lent::new(&kinds, 0x5A);
    // One word too many, sometimes.
    let uneven = usize::from(random.once_in(20));
    memory.words = Lent::new(&words(random, pool + uneven), 0xFEED_FACE);
    memory.lend_handlers(&handlers(random, code.len()));
    let (max_stack, max_locals) = (random.below(9), random.below(6));
    // Fewer slots than the frame has, sometimes.
    let slots = (max_stack + max_locals + random.below(8)).saturating_sub(random.below(3));
    let slots = Lent::new(&words(random, slots), 0xFEED_FACE);
    // Small words, so that an entry is sometimes one that can be taken back.
    let entries = random.below(45);
    let log: Vec<u32> = words(random, entries).iter().map(|word| word % 9).collect();
    let state = State {
        max_stack: max_stack as u16,
        max_locals: max_locals as u16,
        pc: pc as u32,
        depth: random.below(max_stack + 2) as u32,
        count: if random.once_in(20) {
            random.next()
        } else {
            random.below(4) as u64
        },
        return_type: return_type(random),
    };
    Lesson {
        memory,
        slots,
        log: Lent::new(&log, 0xFEED_FACE),
        state,
    }
}

/// A code of junk, and an offset in it or at its end.
fn code(random: &mut Random) -> (Vec<u8>, usize) {
    let length = 1 + random.below(24);
    let mut code: Vec<u8> = (0..length).map(|_| random.below(202) as u8).collect();
    let pc = random.below(length + 1);
    // IDIV, LDIV, IREM and LREM more often than the others, so that there is something to catch.
    if random.once_in(8) && pc < length {
        code[pc] = random.pick(&[0x6C, 0x6D, 0x70, 0x71]);
    }
    (code, pc)
}

/// Entries for a code of so many bytes, many of which cover much of it, and a rest.
fn handlers(random: &mut Random, length: usize) -> Vec<u8> {
    let mut bytes = vec![];
    for _ in 0..random.below(3) {
        let [start, end, at] = [0, 1, 2].map(|_| random.below(length + 2) as u16);
        let (start, end) = (random.pick(&[0, start]), random.pick(&[length as u16, end]));
        let index = random.below(7) as u16;
        bytes.extend(handler([start, end, at, random.pick(&[0, index])]));
    }
    bytes.extend(vec![0; random.below(12)]);
    bytes
}

/// None, a letter, or a word that counts as none.
fn return_type(random: &mut Random) -> ReturnType {
    let letter = u32::from(random.pick(b"BCDFIJLSVZ"));
    let other = random.next() as u32;
    ReturnType::from_word(random.pick(&[0, letter, letter, letter | 0x100, other]))
}

fn words(random: &mut Random, length: usize) -> Vec<u32> {
    let word = |_| {
        let any = random.next() as u32;
        random.pick(&[0, 1, u32::MAX, any])
    };
    (0..length).map(word).collect()
}

#[test]
fn junk_is_answered() {
    let mut random = Random::new(4);
    let mut met = HashSet::new();
    let mut caught = 0;
    for _ in 0..40_000 {
        let mut lesson = junk(&mut random);
        met.extend(answers(&lesson));
        let throws = without_handlers(&lesson).step() == Answer::Throw;
        caught += u32::from(throws && lesson.step() == Answer::Granted);
    }
    assert!(caught > 20, "only {caught} exceptions are caught");
    assert!(met.contains(&Answer::Granted) && met.contains(&Answer::Throw));
    for number in (1..=14).filter(|number| *number != 6).chain([32]) {
        assert!(met.contains(&refused(number)), "no refusal {number}");
    }
}

#[test]
fn parts_that_are_only_read_may_be_the_same() {
    // LDC 3; the code's bytes are also the pool's kinds, and byte 3 says that there is an int. The
    // pool's words are also the log, and they are an entry: one place, at 0, where 77 was. The code
    // is also lent as handlers.
    let (mut code, mut words) = ([0; 20], [0; 20]);
    code[..4].copy_from_slice(&[0x12, 3, 0xAC, 3]);
    words[3..5].copy_from_slice(&[1, 77]);
    let parts = Parts {
        code: &code,
        kinds: &code,
        words: &words,
        handlers: &code,
    };
    let start = State {
        max_stack: 1,
        max_locals: 0,
        pc: 0,
        depth: 0,
        count: 0,
        return_type: ReturnType::BYTE,
    };
    let (mut slots, mut state) = ([0], start);
    assert_eq!(step(parts, &mut slots, &mut state), Answer::Granted);
    assert_eq!((slots, state.pc, state.depth), ([1], 2, 1));
    state.count = 1;
    assert_eq!(back(parts, &mut slots, &words, &mut state), Answer::Granted);
    assert_eq!((slots, state), ([77], start));
}
