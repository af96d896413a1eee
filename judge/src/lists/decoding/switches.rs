//! Switches: at every offset, cut at every byte, at the limits of their fields, and with their keys.

use super::instructions::DEFAULT;
use super::At;
use crate::decode::decode;
use crate::lists::scatter::Scatter;
use bytecode::instructions::switch_operands;
use std::collections::BTreeSet;

const MOST: i32 = i32::MAX;
const LEAST: i32 = i32::MIN;

/// All of them.
pub fn all() -> Vec<At> {
    let mut found = cut();
    found.extend(limits_of_tables());
    found.extend(limits_of_pairs());
    found.extend(orders_of_keys());
    found
}

/// Code with a switch at an offset. Before it stand opcodes outside the core, and the padding has one byte's value.
fn switch(pc: usize, opcode: u8, fields: &[i32], padding: u8) -> Vec<u8> {
    let mut code = vec![0xFF; pc];
    code.push(opcode);
    code.resize(switch_operands(pc), padding);
    code.extend(fields.iter().flat_map(|field| field.to_be_bytes()));
    code
}

fn padded_table(pc: usize, low: i32, high: i32, offsets: &[i32], padding: u8) -> Vec<u8> {
    switch(pc, 170, &[&[DEFAULT, low, high], offsets].concat(), padding)
}

fn padded_lookup(pc: usize, pairs: &[(i32, i32)], padding: u8) -> Vec<u8> {
    switch(
        pc,
        171,
        &fields(pairs, DEFAULT, pairs.len() as i32),
        padding,
    )
}

fn fields(pairs: &[(i32, i32)], default: i32, count: i32) -> Vec<i32> {
    let pairs = pairs.iter().flat_map(|&(key, offset)| [key, offset]);
    [default, count].into_iter().chain(pairs).collect()
}

/// A `TABLESWITCH` at an offset.
pub fn table(pc: usize, low: i32, high: i32, offsets: &[i32], default: i32) -> Vec<u8> {
    switch(pc, 170, &[&[default, low, high], offsets].concat(), 0)
}

/// A `LOOKUPSWITCH` at an offset.
pub fn lookup(pc: usize, pairs: &[(i32, i32)], default: i32) -> Vec<u8> {
    counted(pc, pairs, default, pairs.len() as i32)
}

/// A `LOOKUPSWITCH` with any number of pairs written.
fn counted(pc: usize, pairs: &[(i32, i32)], default: i32, count: i32) -> Vec<u8> {
    switch(pc, 171, &fields(pairs, default, count), 0)
}

/// Switches that pass, for each shape of table, with offsets that all differ.
fn whole(pc: usize) -> Vec<Vec<u8>> {
    let mut scatter = Scatter::new(pc as u64);
    let mut any = move || scatter.word() as i32;
    let bounds = [
        (0, 0),
        (-1, 1),
        (3, 7),
        (-8, -4),
        (0, 5),
        (MOST - 2, MOST),
        (LEAST, LEAST + 2),
        (MOST, MOST),
        (LEAST, LEAST),
    ];
    let keys: [&[i32]; 9] = [
        &[],
        &[0],
        &[-1],
        &[-7, 7],
        &[LEAST, MOST],
        &[-100, -1, 0, 1, 100],
        &[1, 3, 4, 6, MOST],
        &[LEAST, LEAST + 1, -3, -2, -1],
        &[0x7F, 0x80, 0xFF, 0x100, 0x10000],
    ];
    let mut found = vec![];
    for (low, high) in bounds {
        let offsets: Vec<i32> = (low..=high).map(|_| any()).collect();
        found.push(table(pc, low, high, &offsets, any()));
    }
    for keys in keys {
        let pairs: Vec<(i32, i32)> = keys.iter().map(|&key| (key, any())).collect();
        found.push(lookup(pc, &pairs, any()));
    }
    found
}

/// Switches at each offset modulo 8: whole, with bytes after, with padding that is not 0, and cut at each byte.
fn cut() -> Vec<At> {
    let mut found = vec![];
    for pc in 0..8 {
        for code in whole(pc) {
            let shorter = code[..code.len() - 1].to_vec();
            found.extend([(code, pc), (shorter, pc)]);
        }
        // The third and the fourth have fields that would be refused with 6 if the bytes that are cut off counted as 0.
        for code in [
            table(pc, -1, 1, &[5, 6, 7], DEFAULT),
            lookup(pc, &[(-4, 5), (8, 6)], DEFAULT),
            table(pc, 0x0101_0101, 0x0101_0101, &[5], DEFAULT),
            counted(pc, &[], DEFAULT, -1),
        ] {
            found.push(([&code[..], &[0xAB]].concat(), pc));
            found.extend((pc + 1..code.len()).map(|end| (code[..end].to_vec(), pc)));
        }
        for padding in [0x01, 0xAA, 0xFF] {
            found.push((padded_table(pc, 1, 2, &[3, 4], padding), pc));
            found.push((padded_lookup(pc, &[(1, 2), (3, 4)], padding), pc));
        }
    }
    for pc in [12, 13, 14, 15] {
        found.push((table(pc, 0, 2, &[9, 8, 7], DEFAULT), pc));
        found.push((lookup(pc, &[(1, 2), (3, 4)], DEFAULT), pc));
    }
    found
}

/// A lowest key above the highest, and tables too long for the code, of a size that 32 bits cannot hold too.
#[rustfmt::skip]
const BOUNDS: [(i32, i32); 32] = [
    (1, 0), (0, -1), (5, -5), (1, -1), (MOST, LEAST), (MOST, MOST - 1), (LEAST + 1, LEAST), (MOST, 0), (0, LEAST),
    (LEAST, MOST), (LEAST, MOST - 1), (LEAST + 1, MOST), (LEAST, 0), (LEAST, -1), (0, MOST), (-1, MOST), (0, 6), (0, 7),
    (-1, 1), (0, (1 << 30) - 2), (0, (1 << 30) - 1), (0, 1 << 30), (0, (1 << 30) + 1), (-1 << 29, (1 << 29) - 1),
    (-1 << 29, 1 << 29), (-1 << 30, (1 << 30) - 1), (-1 << 30, 1 << 30), (0, 0xFFFF), (0, 0x3FFF), (0, 0x4000), (0, 0x3F),
    (0, 0x40),
];

fn limits_of_tables() -> Vec<At> {
    let mut found = vec![];
    for (low, high) in BOUNDS {
        for pc in [0, 3] {
            for offsets in [&[][..], &[1], &[1, 2, 3, 4, 5, 6, 7]] {
                found.push((table(pc, low, high, offsets, DEFAULT), pc));
            }
        }
    }
    found
}

/// Counts that are negative or too large, of a size that 32 bits cannot hold too.
#[rustfmt::skip]
const COUNTS: [i32; 23] = [
    0, 1, 2, 3, 4, 5, -1, -2, LEAST, LEAST + 1, MOST, MOST - 1, (1 << 29) - 1, 1 << 29, (1 << 29) + 1, (1 << 29) + 3,
    1 << 30, (1 << 30) + 1, 0x100, 0x10000, 0x2000, -1 << 29, LEAST + 3,
];

fn limits_of_pairs() -> Vec<At> {
    let some = [(1, 2), (3, 4), (5, 6)];
    let mut found = vec![];
    for count in COUNTS {
        for pc in [0, 3] {
            for pairs in [&[][..], &some[..1], &some] {
                found.push((counted(pc, pairs, DEFAULT, count), pc));
            }
        }
    }
    found
}

/// Keys that do not rise, some by their sign alone.
const ORDERS: [&[i32]; 27] = [
    &[1, 1],
    &[2, 1],
    &[0, -1],
    &[MOST, LEAST],
    &[1, 2, 2],
    &[1, 1, 2],
    &[1, 2, 1],
    &[3, 2, 1],
    &[1, 2, 3, 4, 4],
    &[1, 2, 3, 4, 3],
    &[1, 2, 3, 4, LEAST],
    &[5, 1, 2, 3, 4],
    &[1, 3, 2, 4, 5],
    &[0, 0, 0, 0, 0],
    &[-1, 0, 1, 2, 3],
    &[0, 1, 2, 3, -1],
    &[LEAST, -1, 0, 1, MOST],
    &[-1, -2],
    &[-2, -1],
    &[LEAST, LEAST],
    &[MOST, MOST],
    &[0x100, 0xFF],
    &[0xFF, 0x100],
    &[0x10000, 0xFFFF],
    &[0xFFFF, 0x10000],
    &[0x0100_0000, 0x00FF_FFFF],
    &[0x00FF_FFFF, 0x0100_0000],
];

/// Each order with the whole table there, with its last byte missing, and with a byte after it.
fn orders_of_keys() -> Vec<At> {
    let mut found = vec![];
    for keys in ORDERS {
        for pc in [1, 6] {
            let pairs: Vec<(i32, i32)> = keys.iter().copied().zip(0..).collect();
            let code = lookup(pc, &pairs, DEFAULT);
            let (shorter, longer) = (code[..code.len() - 1].to_vec(), [&code[..], &[0]].concat());
            found.extend([(code, pc), (shorter, pc), (longer, pc)]);
        }
    }
    found
}

/// Each key of a switch, one below and one above it, and the limits of an int.
fn keys_to_try(code: &[u8], pc: usize) -> BTreeSet<i32> {
    let switch = decode(code, pc).expect("a switch that passes");
    let mut keys = BTreeSet::from([LEAST, LEAST + 1, -1, 0, 1, MOST - 1, MOST]);
    for (key, _) in switch.entries(code) {
        keys.extend(
            [key.checked_sub(1), Some(key), key.checked_add(1)]
                .into_iter()
                .flatten(),
        );
    }
    keys
}

/// Each switch that passes, with its keys and others. Two have padding that is not 0, and bytes after them.
pub fn branches() -> Vec<(Vec<u8>, usize, i32)> {
    let mut found = vec![];
    let mut add = |code: Vec<u8>, pc: usize| {
        let keys = keys_to_try(&code, pc).into_iter();
        found.extend(keys.map(|key| (code.clone(), pc, key)));
    };
    for pc in 0..4 {
        whole(pc).into_iter().for_each(|code| add(code, pc));
        let after = [0x55; 9];
        add(
            [&padded_table(pc, -2, 2, &[9, 8, 7, 6, 5], 0xFF)[..], &after].concat(),
            pc,
        );
        add(
            [&padded_lookup(pc, &[(-9, 1), (9, 2)], 0xFF)[..], &after].concat(),
            pc,
        );
    }
    for pc in [4, 5, 6, 7, 13] {
        add(table(pc, 5, 8, &[50, 60, 70, 80], DEFAULT), pc);
        add(lookup(pc, &[(5, 50), (7, 70), (8, 80)], DEFAULT), pc);
    }
    found
}
