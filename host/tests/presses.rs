//! A list of presses in one call equals single presses, and both equal the plain walk
//! (docs/RULES.md).
#![forbid(unsafe_code)]

mod common;

use common::random::Random;
use common::{accepted_samples, refused, sample, Lesson};
use std::collections::HashSet;
use workbook_host::{Answer, Press, State, Value};

/// A list in which more presses go forward than back.
fn list(random: &mut Random, length: usize) -> Vec<Press> {
    let press = |_| {
        if random.below(3) > 0 {
            Press::Forward
        } else {
            Press::Back
        }
    };
    (0..length).map(press).collect()
}

/// The plain walk: stages made by steps without history, and one number.
struct Plain {
    stages: Vec<(State, Vec<u32>)>,
    /// The answer to the step after the last stage, where the walk ends.
    last: Option<Answer>,
    net: usize,
}

impl Plain {
    /// The stages of a walk, at most so many steps of it.
    fn new(lesson: &Lesson, steps: usize) -> Plain {
        let mut lesson = lesson.clone();
        let mut stages = vec![(lesson.state, lesson.frame().to_vec())];
        let mut last = None;
        while stages.len() <= steps {
            match lesson.step() {
                Answer::Granted => stages.push((lesson.state, lesson.frame().to_vec())),
                answer => {
                    last = Some(answer);
                    break;
                }
            }
        }
        Plain {
            stages,
            last,
            net: 0,
        }
    }

    fn press(&mut self, press: Press, entries: usize) -> Answer {
        match press {
            Press::Back if self.net == 0 => refused(13),
            Press::Back => {
                self.net -= 1;
                Answer::Granted
            }
            Press::Forward if self.net + 1 == self.stages.len() => self
                .last
                .expect("the stages reach as far as the presses go"),
            Press::Forward if self.net >= entries => refused(12),
            Press::Forward => {
                self.net += 1;
                Answer::Granted
            }
        }
    }
}

#[test]
fn a_list_is_its_presses_one_by_one() {
    let mut random = Random::new(1);
    for sample in accepted_samples() {
        for (entries, length) in [(0, 9), (1, 20), (4, 50), (70, 0), (70, 1), (70, 200)] {
            let list = list(&mut random, length);
            let mut one_by_one = Lesson::new(&sample.sheet, entries);
            let mut at_once = one_by_one.clone();
            let answers: Vec<Answer> = list.iter().map(|&press| one_by_one.press(press)).collect();
            assert_eq!(at_once.press_all(&list), answers, "{}", sample.name);
            assert_eq!(at_once.state, one_by_one.state, "{}", sample.name);
            // Every slot and every log word, and the guards around both.
            assert!(at_once == one_by_one, "{}", sample.name);
        }
    }
}

#[test]
fn every_press_is_answered_as_by_the_plain_walk() {
    let mut random = Random::new(2);
    let mut seen = HashSet::new();
    for sample in accepted_samples() {
        for entries in [0, 1, 4, 300] {
            let mut lesson = Lesson::new(&sample.sheet, entries);
            let mut plain = Plain::new(&lesson, 400);
            let list = list(&mut random, 300);
            let expected: Vec<Answer> = list
                .iter()
                .map(|&press| plain.press(press, entries))
                .collect();
            assert_eq!(lesson.press_all(&list), expected, "{}", sample.name);
            let (stage, frame) = &plain.stages[plain.net];
            assert_eq!(
                lesson.state,
                State {
                    count: plain.net as u64,
                    ..*stage
                }
            );
            assert_eq!(lesson.frame(), frame, "{}", sample.name);
            seen.extend(expected);
        }
    }
    for answer in [
        Answer::Granted,
        Answer::Return(Value::Int(10)),
        Answer::Return(Value::Long(0x1_0000_0000)),
        Answer::Return(Value::Double(0x4202_A06B_5506_0000)),
        Answer::Return(Value::Void),
        Answer::Throw,
        refused(8),
        refused(12),
        refused(13),
    ] {
        assert!(seen.contains(&answer), "no press was answered {answer}");
    }
}

#[test]
fn a_returned_long_comes_with_both_words_and_comes_again() {
    let sheet = sample("long_sum").sheet;
    let mut lesson = Lesson::new(&sheet, 20);
    let mut steps = 0;
    while lesson.press(Press::Forward) == Answer::Granted {
        steps += 1;
    }
    let long = Answer::Return(Value::Long(0x0000_0001_0000_0000));
    assert_eq!(lesson.press(Press::Forward), long);

    let mut list = vec![Press::Forward; steps + 2];
    list.extend([Press::Back, Press::Forward, Press::Forward]);
    let mut expected = vec![Answer::Granted; steps];
    expected.extend([long, long, Answer::Granted, Answer::Granted, long]);
    assert_eq!(Lesson::new(&sheet, 20).press_all(&list), expected);
}

#[test]
fn a_negative_long_keeps_its_sign() {
    // LLOAD_0, LRETURN.
    let words = [0x0000_0001, 0xFFFF_FFFF];
    let sheet = common::sheet(2, 2, &[0x1E, 0xAD], &words);
    let mut lesson = Lesson::new(&sheet, 2);
    let long = Answer::Return(Value::Long(-0xFFFF_FFFF));
    assert_eq!(
        lesson.press_all(&[Press::Forward, Press::Forward]),
        [Answer::Granted, long]
    );
}
