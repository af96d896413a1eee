//! The kinds of words on random codes and states: a kind for each word, and no panic.
#![forbid(unsafe_code)]

mod common;

use common::random::Random;
use common::{class, sheet_with};
use workbook_host::kinds::{Kind, Kinds};
use workbook_host::records::{constant, handler};
use workbook_host::{forward, instructions, Answer, Parts, State, Walk};

/// A sheet of mostly whole instructions with small operands.
fn random_sheet(random: &mut Random) -> Vec<u8> {
    // Constants at first, so that the stack has something on it.
    let mut code: Vec<u8> = (0..random.below(9))
        .map(|_| 1 + random.below(15) as u8)
        .collect();
    let length = code.len() + 1 + random.below(40);
    while code.len() < length {
        let byte = random.below(256) as u8;
        match instructions::of_opcode(byte) {
            Some(found) if !random.once_in(40) => {
                code.push(byte);
                for _ in 0..found.operands.length().unwrap_or(1) {
                    code.push(if random.once_in(2) {
                        0
                    } else {
                        random.below(9) as u8
                    });
                }
            }
            _ if random.once_in(20) => code.push(byte),
            _ => {}
        }
    }
    let (max_stack, max_locals) = (random.below(30) as u16, random.below(12) as u16);
    let end = code.len() as u16;
    let records = [
        constant(1, 3, &[0; 4]),
        constant(2, 4, &[0; 4]),
        constant(3, 5, &[0; 8]),
        constant(5, 6, &[0; 8]),
        class(7, 1),
        handler([0, end, random.below(code.len()) as u16, 7]),
    ];
    sheet_with(max_stack, max_locals, &code, &records)
}

/// Low and high words stand in pairs.
fn paired(kinds: &[Kind]) -> bool {
    let mut rest = kinds;
    while let Some((first, after)) = rest.split_first() {
        rest = match (first, after.first()) {
            (Kind::LongLow, Some(Kind::LongHigh)) | (Kind::DoubleLow, Some(Kind::DoubleHigh)) => {
                &after[1..]
            }
            (Kind::LongLow | Kind::LongHigh | Kind::DoubleLow | Kind::DoubleHigh, _) => {
                return false
            }
            _ => after,
        }
    }
    true
}

/// A step changes no kind but of the words that it wrote, or makes one not known beside them.
fn kept(before: &[Kind], after: &[Kind], wrote: impl Fn(usize) -> bool) -> bool {
    let mut pairs = before.iter().zip(after).enumerate();
    pairs.all(|(place, (old, new))| old == new || wrote(place) || *new == Kind::Unknown)
}

#[test]
fn random_codes_give_a_kind_for_each_word() {
    let (mut random, mut steps, mut known) = (Random::new(20), 0, 0);
    for _ in 0..20_000 {
        let walk = Walk::open(random_sheet(&mut random)).unwrap();
        let (parts, mut frame, mut state) = (walk.parts(), walk.frame().to_vec(), walk.state());
        let (mut kinds, mut log) = (Kinds::at_start(walk.sheet()), [0; 10]);
        for _ in 0..40 {
            let before = State { count: 0, ..state };
            state = before;
            let standing = kinds.clone();
            if forward(parts, &mut frame, &mut log, &mut state) != Answer::Granted {
                break;
            }
            kinds.step(parts, before, state, &frame);
            steps += 1;
            assert_eq!(kinds.stack().len(), state.depth as usize);
            assert_eq!(kinds.locals().len(), usize::from(state.max_locals));
            assert!(paired(kinds.locals()) && paired(kinds.stack()));
            let (first, locals) = (log[2] as usize, kinds.locals().len());
            let places = first..first + log[3] as usize;
            let local = |place: usize| places.contains(&place);
            let stack = |place: usize| places.contains(&(locals + place));
            assert!(kept(standing.locals(), kinds.locals(), local));
            assert!(kept(standing.stack(), kinds.stack(), stack));
            known += kinds
                .stack()
                .iter()
                .filter(|kind| **kind != Kind::Unknown)
                .count();
        }
    }
    assert!(
        steps > 40_000 && known > 40_000,
        "{steps} steps, {known} kinds"
    );
}

#[test]
fn no_code_and_no_state_ends_in_a_panic() {
    let mut random = Random::new(7);
    for _ in 0..20_000 {
        let mut sheet: Vec<u8> = (0..random.below(30)).map(|_| random.next() as u8).collect();
        // Few locals, except now and then.
        if let Some(high) = sheet.get_mut(6).filter(|_| !random.once_in(500)) {
            *high = 0;
        }
        let mut kinds = Kinds::at_start(&sheet);
        let mut code: Vec<u8> = (0..random.below(12)).map(|_| random.next() as u8).collect();
        let mut state = || State {
            max_stack: random.below(20) as u16,
            max_locals: random.below(20) as u16,
            pc: random.below(14) as u32,
            depth: [random.below(20) as u32, random.next() as u32][random.below(2)],
            ..Walk::open(sheet_with(0, 0, &[0xB1], &[])).unwrap().state()
        };
        let (before, after) = (state(), state());
        code.extend(sheet.iter().take(3));
        let (tags, words) = (vec![3; random.below(9)], vec![0; random.below(9)]);
        let parts = Parts {
            code: &code,
            kinds: &tags,
            words: &words,
            handlers: &[],
        };
        let frame = vec![0; random.below(40)];
        for _ in 0..3 {
            kinds.step(parts, before, after, &frame);
            assert!(paired(kinds.locals()));
            let depth = after.depth.min(after.max_stack.into());
            assert_eq!(kinds.stack().len(), depth as usize);
        }
    }
}
