//! The model against the vectors of arithmetic, which exact arithmetic on fractions has made
//! (tools/vectors/arithmetic.py): so no float unit judges itself.
#![forbid(unsafe_code)]

use judge::answers::Answer;
use judge::step::{step, Method, State};

const VECTORS: &str = include_str!("../../crates/arithmetic_vectors/stdin");

/// The words of digits: one of 8 digits or fewer, two of 16, the low one first.
fn words(digits: &str) -> Vec<u32> {
    let bits = u64::from_str_radix(digits, 16).unwrap();
    [bits as u32, (bits >> 32) as u32][..digits.len().div_ceil(8)].to_vec()
}

/// Takes one step: the offset after it, and the words that it leaves on the stack.
fn stepped(code: &[u8], slots: &mut [u32], max_locals: usize) -> (u32, Vec<u32>) {
    let method = Method {
        code,
        kinds: &[],
        words: &[],
        handlers: &[],
    };
    let mut state = State {
        max_stack: 8,
        max_locals: max_locals as u32,
        depth: (slots.len() - 8 - max_locals) as u32,
        ..State::default()
    };
    assert_eq!(step(&method, slots, &mut state), Answer::GRANTED);
    let stack = &slots[max_locals..][..state.depth as usize];
    (state.pc, stack.to_vec())
}

/// What the model gives of a vector.
fn result(opcode: u8, name: &str, operands: &[&str]) -> Vec<u32> {
    let given: Vec<u32> = operands.iter().flat_map(|digits| words(digits)).collect();
    let mut slots = [&given[..], &[0; 8]].concat();
    match (name, opcode) {
        ("iinc", _) => {
            let mut slots = vec![given[0]; 9];
            stepped(&[opcode, 0, given[1] as u8, 177], &mut slots, 1);
            vec![slots[0]]
        }
        ("iinc_wide", _) => {
            let [high, low] = (given[1] as u16).to_be_bytes();
            let mut slots = vec![given[0]; 9];
            stepped(&[opcode, 132, 0, 0, high, low, 177], &mut slots, 1);
            vec![slots[0]]
        }
        (_, 159..=164) => {
            let (pc, _) = stepped(&[opcode, 0, 4, 0, 177], &mut slots, 0);
            vec![u32::from(pc == 4)]
        }
        _ => stepped(&[opcode, 177], &mut slots, 0).1,
    }
}

#[test]
fn every_vector() {
    for line in VECTORS.lines() {
        let opcode = u8::from_str_radix(&line[..2], 16).unwrap();
        let column = |from: usize, to: usize| line[from..to].trim();
        let operands: Vec<&str> = [column(13, 29), column(30, 46)]
            .into_iter()
            .filter(|digits| !digits.is_empty())
            .collect();
        let found = result(opcode, column(3, 12), &operands);
        assert_eq!(found, words(column(47, 63)), "{line}");
    }
    assert!(VECTORS.lines().count() > 9_000);
}
