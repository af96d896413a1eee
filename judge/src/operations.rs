//! What each instruction does with the words that it pops (JVMS 6.5).

use crate::answers::Answer;
use crate::decode::Decoded;
use crate::floats::{double_bits, float_bits, float_of, remainder};
use crate::shapes::locals;
use crate::step::Method;
use std::cmp::Ordering;

/// Up to six words.
#[derive(Clone, Copy, Debug)]
pub struct Few {
    words: [u32; 6],
    many: usize,
}

impl Few {
    /// These words.
    pub fn of(from: &[u32]) -> Few {
        let mut words = [0; 6];
        words[..from.len()].copy_from_slice(from);
        Few {
            words,
            many: from.len(),
        }
    }

    /// The words.
    pub fn words(&self) -> &[u32] {
        &self.words[..self.many]
    }
}

/// What an instruction does once it is allowed.
#[derive(Clone, Copy, Debug)]
pub enum Does {
    /// Pushes words.
    Push(Few),
    /// Stores words, from the local of its index on.
    Store(Few),
    /// Goes on so far from the opcode.
    Jump(i32),
    /// Throws an ArithmeticException.
    Throw,
    /// Ends the walk.
    End(Answer),
}

/// The words that an instruction pops, lowest place first.
#[derive(Clone, Copy)]
struct Popped<'a>(&'a [u32]);

impl Popped<'_> {
    fn int(self, place: usize) -> i32 {
        self.0[place] as i32
    }

    fn bits(self, place: usize) -> u64 {
        u64::from(self.0[place]) | u64::from(self.0[place + 1]) << 32
    }

    fn long(self, place: usize) -> i64 {
        self.bits(place) as i64
    }

    fn float(self, place: usize) -> f32 {
        f32::from_bits(self.0[place])
    }

    fn double(self, place: usize) -> f64 {
        f64::from_bits(self.bits(place))
    }
}

fn push(words: &[u32]) -> Does {
    Does::Push(Few::of(words))
}

fn push_int(value: i32) -> Does {
    push(&[value as u32])
}

fn push_bits(bits: u64) -> Does {
    push(&[bits as u32, (bits >> 32) as u32])
}

fn push_long(value: i64) -> Does {
    push_bits(value as u64)
}

fn push_float(value: f32) -> Does {
    push(&[float_bits(value)])
}

fn push_double(value: f64) -> Does {
    push_bits(double_bits(value))
}

/// What an instruction does with the words that it pops.
pub fn perform(method: &Method, decoded: &Decoded, slots: &[u32], popped: &[u32]) -> Does {
    let (opcode, index, words) = (decoded.opcode, decoded.index, Popped(popped));
    match opcode {
        16 | 17 => push_int(decoded.constant),
        18 | 19 => push(&method.words[index..index + 1]),
        20 => push(&method.words[index..index + 2]),
        21..=25 => push(&slots[index..index + locals(opcode)]),
        54..=58 => Does::Store(Few::of(popped)),
        132 => Does::Store(Few::of(&[
            slots[index].wrapping_add(decoded.constant as u32)
        ])),
        0..=15 => constant(opcode),
        87..=95 => shuffled(opcode, popped),
        96..=131 => match (opcode % 2, opcode % 4, opcode < 120) {
            (0, 0, true) | (0, _, false) => int_arithmetic(opcode, words),
            (1, 1, true) | (1, _, false) => long_arithmetic(opcode, words),
            (0, ..) => float_arithmetic(opcode, words),
            _ => double_arithmetic(opcode, words),
        },
        133..=147 => converted(opcode, words),
        148..=152 => compared(opcode, words),
        170 | 171 => Does::Jump(decoded.chosen(method.code, words.int(0))),
        172..=177 => returned(opcode, popped),
        _ if is_taken(opcode, words) => Does::Jump(decoded.constant),
        _ => push(&[]),
    }
}

/// `NOP` to `DCONST_1`.
fn constant(opcode: u8) -> Does {
    match opcode {
        0 => push(&[]),
        1 => push(&[0]),
        2..=8 => push_int(i32::from(opcode) - 3),
        9 | 10 => push_long(i64::from(opcode) - 9),
        11..=13 => push_float(f32::from(opcode - 11)),
        _ => push_double(f64::from(opcode - 14)),
    }
}

/// `POP` to `SWAP`: the places, from below, whose words are pushed.
fn shuffled(opcode: u8, popped: &[u32]) -> Does {
    let places: &[usize] = match opcode {
        89 => &[0, 0],
        90 => &[1, 0, 1],
        91 => &[2, 0, 1, 2],
        92 => &[0, 1, 0, 1],
        93 => &[1, 2, 0, 1, 2],
        94 => &[2, 3, 0, 1, 2, 3],
        95 => &[1, 0],
        _ => &[],
    };
    let mut words = [0; 6];
    for (word, &place) in words.iter_mut().zip(places) {
        *word = popped[place];
    }
    push(&words[..places.len()])
}

fn int_arithmetic(opcode: u8, words: Popped) -> Does {
    let one = words.int(0);
    if opcode == 116 {
        return push_int(one.wrapping_neg());
    }
    let (other, count) = (words.int(1), words.0[1]);
    push_int(match opcode {
        96 => one.wrapping_add(other),
        100 => one.wrapping_sub(other),
        104 => one.wrapping_mul(other),
        108 | 112 if other == 0 => return Does::Throw,
        108 => one.wrapping_div(other),
        112 => one.wrapping_rem(other),
        120 => one.wrapping_shl(count),
        122 => one.wrapping_shr(count),
        124 => (one as u32).wrapping_shr(count) as i32,
        126 => one & other,
        128 => one | other,
        _ => one ^ other,
    })
}

fn long_arithmetic(opcode: u8, words: Popped) -> Does {
    let one = words.long(0);
    // A shift's count is an int.
    match opcode {
        117 => return push_long(one.wrapping_neg()),
        121 => return push_long(one.wrapping_shl(words.0[2])),
        123 => return push_long(one.wrapping_shr(words.0[2])),
        125 => return push_bits(words.bits(0).wrapping_shr(words.0[2])),
        _ => {}
    }
    let other = words.long(2);
    push_long(match opcode {
        97 => one.wrapping_add(other),
        101 => one.wrapping_sub(other),
        105 => one.wrapping_mul(other),
        109 | 113 if other == 0 => return Does::Throw,
        109 => one.wrapping_div(other),
        113 => one.wrapping_rem(other),
        127 => one & other,
        129 => one | other,
        _ => one ^ other,
    })
}

fn float_arithmetic(opcode: u8, words: Popped) -> Does {
    if opcode == 118 {
        return push(&[words.0[0] ^ 0x8000_0000]);
    }
    let (one, other) = (words.float(0), words.float(1));
    push_float(match opcode {
        98 => one + other,
        102 => one - other,
        106 => one * other,
        110 => one / other,
        _ => remainder(one.into(), other.into()) as f32,
    })
}

fn double_arithmetic(opcode: u8, words: Popped) -> Does {
    if opcode == 119 {
        return push(&[words.0[0], words.0[1] ^ 0x8000_0000]);
    }
    let (one, other) = (words.double(0), words.double(2));
    push_double(match opcode {
        99 => one + other,
        103 => one - other,
        107 => one * other,
        111 => one / other,
        _ => remainder(one, other),
    })
}

/// `I2L` to `I2S`. Rust's `as` cuts toward zero, saturates, and makes 0 of a NaN.
fn converted(opcode: u8, words: Popped) -> Does {
    match opcode {
        133 => push_long(words.int(0).into()),
        134 => push_float(words.int(0) as f32),
        135 => push_double(words.int(0).into()),
        136 => push_int(words.long(0) as i32),
        137 => push_float(float_of(words.long(0))),
        138 => push_double(words.long(0) as f64),
        139 => push_int(words.float(0) as i32),
        140 => push_long(words.float(0) as i64),
        141 => push_double(words.float(0).into()),
        142 => push_int(words.double(0) as i32),
        143 => push_long(words.double(0) as i64),
        144 => push_float(words.double(0) as f32),
        145 => push_int((words.int(0) as i8).into()),
        146 => push_int((words.int(0) as u16).into()),
        _ => push_int((words.int(0) as i16).into()),
    }
}

/// `LCMP` to `DCMPG`: -1, 0 or 1; with a NaN -1 for the `L` forms and 1 for the `G` forms.
fn compared(opcode: u8, words: Popped) -> Does {
    let order = match opcode {
        148 => Some(words.long(0).cmp(&words.long(2))),
        149 | 150 => words.float(0).partial_cmp(&words.float(1)),
        _ => words.double(0).partial_cmp(&words.double(2)),
    };
    let unordered = if opcode % 2 == 1 {
        Ordering::Less
    } else {
        Ordering::Greater
    };
    push_int(order.unwrap_or(unordered) as i32)
}

/// The tests of the branches, and the jumps, which have none.
fn is_taken(opcode: u8, words: Popped) -> bool {
    match opcode {
        153..=158 => test(opcode - 153, words.int(0), 0),
        159..=164 => test(opcode - 159, words.int(0), words.int(1)),
        165 => words.0[0] == words.0[1],
        166 => words.0[0] != words.0[1],
        198 => words.0[0] == 0,
        199 => words.0[0] != 0,
        167 | 200 => true,
        _ => unreachable!("opcode {opcode} is outside of the core"),
    }
}

/// The tests of `IFEQ` to `IFLE` and of `IF_ICMPEQ` to `IF_ICMPLE`, in their order.
fn test(which: u8, one: i32, other: i32) -> bool {
    match which {
        0 => one == other,
        1 => one != other,
        2 => one < other,
        3 => one >= other,
        4 => one > other,
        _ => one <= other,
    }
}

/// `IRETURN` to `RETURN`.
fn returned(opcode: u8, popped: &[u32]) -> Does {
    let number = match opcode {
        172 => 101,
        173 => 104,
        174 => 102,
        175 => 105,
        176 => 103,
        _ => 106,
    };
    let word = |place: usize| popped.get(place).copied().unwrap_or(0);
    Does::End(Answer::returned(number, word(0), word(1)))
}
