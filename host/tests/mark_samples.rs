//! `workbook mark`: of every sample, what is so at random places of random steps, in random notations,
//! is right, and with one bit or place changed it is wrong and the sentence names it.
#![forbid(unsafe_code)]

mod common;

use common::folder::{assert_said, Folder};
use common::known::Known;
use common::marks::KINDS;
use common::random::Random;
use common::{samples, Sample};
use workbook_host::kinds::Kinds;
use workbook_host::shown::{values, Shown};
use workbook_host::{source, step, Answer, End, Value, Walk};

/// How many answers of each sample are compared, right and wrong.
const ROUNDS: usize = 12;

/// How many steps of a sample are taken.
const STEPS: usize = 60;

/// The locals and the operand stack after a step.
struct Stage {
    locals: Vec<Shown>,
    stack: Vec<Shown>,
}

/// The stages of a walk, the first before its first step.
fn stages(walk: &Walk) -> Vec<Stage> {
    let (mut state, mut frame) = (walk.state(), walk.frame().to_vec());
    let mut kinds = Kinds::at_start(walk.sheet());
    let mut stages = vec![];
    loop {
        let (locals, stack) = frame.split_at(state.max_locals.into());
        stages.push(Stage {
            locals: values(kinds.locals(), locals).collect(),
            stack: values(kinds.stack(), &stack[..state.depth as usize]).collect(),
        });
        let before = state;
        if stages.len() > STEPS || step(walk.parts(), &mut frame, &mut state) != Answer::Granted {
            return stages;
        }
        kinds.step(walk.parts(), before, state, &frame);
    }
}

/// What is answered: where, and how a sentence begins where it is wrong.
#[derive(Clone)]
enum Claim {
    Local(usize, usize, Known),
    Stack(usize, Vec<Known>),
    Return(Known),
    Other(String),
}

fn begin(number: usize) -> String {
    match number {
        0 => "start: ".to_string(),
        _ => format!("step {number}: "),
    }
}

impl Claim {
    fn places(&self) -> usize {
        match self {
            Claim::Local(_, _, known) => known.words.len(),
            Claim::Stack(_, all) => all.iter().map(|one| one.words.len()).sum::<usize>().max(1),
            Claim::Return(_) | Claim::Other(_) => 1,
        }
    }

    /// Its lines, which say the step too.
    fn written(&self, random: &mut Random, exact: bool) -> String {
        let mut one = |known: &Known| match exact {
            true => random
                .pick(&known.exact().iter().collect::<Vec<_>>())
                .clone(),
            false => known.written(random),
        };
        match self {
            Claim::Local(number, local, known) => {
                format!("step {number}\n local {local} = {}\n", one(known))
            }
            Claim::Stack(number, all) if all.is_empty() => {
                format!("step {number} # empty\nstack = empty\n")
            }
            Claim::Stack(number, all) => {
                let all: Vec<String> = all.iter().map(one).collect();
                format!("step {number}\nstack={}\n", all.join(" , "))
            }
            Claim::Return(known) => format!("answer return {}\n", one(known)),
            Claim::Other(text) => format!("answer {text}\n"),
        }
    }

    /// With one bit or place changed, and how the sentence begins that names it.
    fn changed(&self, random: &mut Random) -> (Claim, String) {
        match self {
            Claim::Local(number, local, known) => {
                let claim = Claim::Local(*number, *local, known.changed(random));
                (claim, format!("{}local {local} is ", begin(*number)))
            }
            Claim::Stack(number, all) => {
                let (mut all, begin) = (all.clone(), begin(*number));
                let index = random.below(all.len() + 1);
                if index < all.len() {
                    let place: usize = all[..index].iter().map(|one| one.words.len()).sum();
                    all[index] = all[index].changed(random);
                    let begin = format!("{begin}stack place {place} is ");
                    return (Claim::Stack(*number, all), begin);
                }
                if all.is_empty() || random.once_in(2) {
                    let (value, words) = (Some(Value::Int(7)), vec![7]);
                    all.push(Known { value, words });
                } else {
                    all.pop();
                }
                (Claim::Stack(*number, all), format!("{begin}the stack "))
            }
            Claim::Return(known) => {
                let claim = Claim::Return(known.changed(random));
                (claim, "the answer is return ".to_string())
            }
            Claim::Other(text) => {
                let other = if text == "throw" { "void" } else { "throw" };
                let begin = format!("the answer is {text}, not {other}");
                (Claim::Other(other.to_string()), begin)
            }
        }
    }
}

/// The claim on the answer, where there is one.
fn answer(end: &End) -> Option<Claim> {
    let value = match *end {
        End::Return(Value::Void) => return Some(Claim::Other("void".to_string())),
        End::Throw => return Some(Claim::Other("throw".to_string())),
        End::Refused(refusal) => {
            let text = format!("refused {}", refusal.number());
            return Some(Claim::Other(text));
        }
        End::Return(value) => value,
        _ => return None,
    };
    let words = match value {
        Value::Long(long) => vec![long as u32, (long >> 32) as u32],
        Value::Double(bits) => vec![bits as u32, (bits >> 32) as u32],
        Value::Int(int) => vec![int as u32],
        Value::Float(word) | Value::Reference(word) => vec![word],
        Value::Void => vec![],
    };
    let value = Some(value);
    Some(Claim::Return(Known { value, words }))
}

/// Random claims, all of them right and no two on the same.
fn claims(random: &mut Random, stages: &[Stage], end: &End) -> Vec<Claim> {
    let mut claims = vec![];
    for (number, stage) in stages.iter().enumerate() {
        if !random.once_in(stages.len().min(8)) {
            continue;
        }
        for local in &stage.locals {
            if random.once_in(stage.locals.len().min(6)) {
                claims.push(Claim::Local(number, local.place, Known::of(local)));
            }
        }
        if random.once_in(2) || stage.locals.is_empty() {
            claims.push(Claim::Stack(
                number,
                stage.stack.iter().map(Known::of).collect(),
            ));
        }
    }
    claims.extend(answer(end));
    for last in (1..claims.len()).rev() {
        claims.swap(last, random.below(last + 1));
    }
    claims
}

fn compare(folder: &Folder, sample: &Sample, random: &mut Random) {
    folder.write("a.sheet", &sample.sheet);
    let walk = Walk::open(sample.sheet.clone()).unwrap();
    let (stages, end) = (stages(&walk), walk.run(10_000).ran.end);
    for _ in 0..ROUNDS {
        let all = claims(random, &stages, &end);
        if all.is_empty() {
            continue;
        }
        let text: String = all.iter().map(|one| one.written(random, false)).collect();
        let places: usize = all.iter().map(Claim::places).sum();
        folder.write("answers", &text);
        let output = folder.workbook(&["mark", "a.sheet", "answers"]);
        let expected = match places {
            1 => "all right: 1 place was compared\n".to_string(),
            _ => format!("all right: {places} places were compared\n"),
        };
        let said = String::from_utf8_lossy(&output.stderr);
        assert_eq!(said, "", "{}:\n{text}", sample.name);
        assert_eq!(String::from_utf8_lossy(&output.stdout), expected, "{text}");
        compare_changed(folder, &sample.name, &all, random);
    }
}

/// The same answers with one bit or place changed.
fn compare_changed(folder: &Folder, name: &str, all: &[Claim], random: &mut Random) {
    let wrong = random.below(all.len());
    let (claim, begin) = all[wrong].changed(random);
    let mut texts: Vec<String> = all.iter().map(|one| one.written(random, false)).collect();
    texts[wrong] = claim.written(random, true);
    let text = texts.concat();
    folder.write("answers", &text);
    let output = folder.workbook(&["mark", "a.sheet", "answers"]);
    let said = String::from_utf8_lossy(&output.stderr);
    assert_eq!(output.status.code(), Some(1), "{name}: {begin}\n{text}");
    assert_eq!(output.stdout, b"", "{name}");
    assert!(said.starts_with(&begin), "{name}: {begin}\n{said}{text}");
}

/// The source with a value of each kind, as a sample.
fn of_kinds() -> Sample {
    Sample {
        name: "kinds".to_string(),
        sheet: source::sheet(KINDS).unwrap(),
        printed: String::new(),
    }
}

#[test]
fn what_is_so_is_right_and_one_change_is_named() {
    let folder = Folder::new("mark-samples");
    let mut random = Random::new(0x006D_6172_6B00);
    for _ in 0..4 {
        compare(&folder, &of_kinds(), &mut random);
    }
    for sample in samples() {
        let Some(number) = sample.printed.strip_prefix("sheet ") else {
            compare(&folder, &sample, &mut random);
            continue;
        };
        let number = number.trim();
        folder.write("a.sheet", &sample.sheet);
        folder.write("answers", format!("answer refused {number}"));
        let output = folder.workbook(&["mark", "a.sheet", "answers"]);
        assert_eq!(output.stdout, b"all right: 1 place was compared\n");
        folder.write("answers", "answer void");
        let output = folder.workbook(&["mark", "a.sheet", "answers"]);
        let sentence = format!("the answer is refused {number}, not void");
        assert_said(&output, 1, &sentence);
    }
}
