//! Sheets: samples and others, whole and spoiled.

use super::codes::{code, long_code, shape};
use super::descriptors;
use super::handlers::{self, Around};
use super::random::Random;
use bytecode::records::{arguments, constant, descriptor, record, sizes};

const SAMPLES: [&[u8]; 29] = [
    include_bytes!("../../../../samples/boolean_return.sheet"),
    include_bytes!("../../../../samples/byte_return.sheet"),
    include_bytes!("../../../../samples/catch_division.sheet"),
    include_bytes!("../../../../samples/char_return.sheet"),
    include_bytes!("../../../../samples/division_by_zero.sheet"),
    include_bytes!("../../../../samples/endless.sheet"),
    include_bytes!("../../../../samples/iinc_255.sheet"),
    include_bytes!("../../../../samples/int_through_float.sheet"),
    include_bytes!("../../../../samples/ldc.sheet"),
    include_bytes!("../../../../samples/long_maximum.sheet"),
    include_bytes!("../../../../samples/long_sum.sheet"),
    include_bytes!("../../../../samples/lookupswitch.sheet"),
    include_bytes!("../../../../samples/loop.sheet"),
    include_bytes!("../../../../samples/minimum_by_minus_one.sheet"),
    include_bytes!("../../../../samples/nan_comparison.sheet"),
    include_bytes!("../../../../samples/nested_handlers.sheet"),
    include_bytes!("../../../../samples/not_covered.sheet"),
    include_bytes!("../../../../samples/printed.sheet"),
    include_bytes!("../../../../samples/refused_handler.sheet"),
    include_bytes!("../../../../samples/refused_length.sheet"),
    include_bytes!("../../../../samples/refused_return.sheet"),
    include_bytes!("../../../../samples/refused_stack.sheet"),
    include_bytes!("../../../../samples/refused_words.sheet"),
    include_bytes!("../../../../samples/shifts.sheet"),
    include_bytes!("../../../../samples/short_return.sheet"),
    include_bytes!("../../../../samples/skipped_terms.sheet"),
    include_bytes!("../../../../samples/swap.sheet"),
    include_bytes!("../../../../samples/tableswitch_highest.sheet"),
    include_bytes!("../../../../samples/wide.sheet"),
];

/// A sheet of one method, whose sizes, indices and arguments are sometimes wrong.
fn built(random: &mut Random, large: bool) -> Vec<u8> {
    let shape = shape(random);
    let (mut max_stack, mut max_locals) = (shape.max_stack, shape.max_locals);
    if large && random.once_in(2) {
        max_stack = random.pick(&[0, 4, 65_535]);
        max_locals = random.pick(&[0, 4, 16_383, 65_535]);
    }
    let mut sheet = sizes(max_stack as u16, max_locals as u16);
    let mut places = None;
    if random.once_in(2) {
        let (text, many) = descriptors::descriptor(random, max_locals.min(300), large);
        sheet.extend(descriptor(&text));
        places = Some(many);
    }
    let mut code = if large {
        long_code(random, &shape)
    } else {
        code(random, &shape)
    };
    code.truncate(65_535);
    sheet.extend(record(b"CD", &code));
    let (records, pool, classes) = constants(random, shape.kinds, large);
    sheet.extend(records);
    if shape.throws {
        let around = Around {
            code: &code,
            pool,
            classes,
        };
        sheet.extend(handlers::records(random, &around, large));
        if random.once_in(48) {
            sheet.extend(constant(pool as u16, 3, &[0; 4]));
        }
    }
    let many = match (random.below(12), places) {
        (0, _) => random.around(max_locals),
        (1, Some(places)) => random.around(places),
        (_, Some(places)) => places,
        _ => random.below(max_locals + 1),
    };
    sheet.extend(arguments(&random.words(many.min(16_383))));
    sheet
}

/// Constants of these kinds, whose indices are seldom wrong, the length of a pool for them, and the indices
/// of classes.
fn constants(random: &mut Random, mut kinds: Vec<u8>, large: bool) -> (Vec<u8>, usize, Vec<usize>) {
    let (mut records, mut classes) = (vec![], vec![]);
    let mut index = 1 - usize::from(random.once_in(24)) + random.below(2);
    if large && random.once_in(16) {
        let many = random.below(50_000);
        kinds = (0..many).map(|_| random.pick(&[3, 4, 5, 6, 7])).collect();
    }
    for &kind in &kinds {
        let long = matches!(kind, 5 | 6);
        let many = 1 + usize::from(long);
        let word = |random: &mut Random| match kind {
            7 if !random.once_in(96) => random.pick(&[0, 1, 1]),
            _ => random.word(),
        };
        let value: Vec<_> = (0..many).map(|_| word(random).to_be_bytes()).collect();
        if kind == 7 {
            classes.push(index);
        }
        records.extend(constant(index as u16, kind, value.as_flattened()));
        index += many;
        if kinds.len() > 8 {
            continue;
        }
        match random.below(64) {
            0 if long => index -= 1,
            1 => index = random.word() as usize,
            2..=9 => index += random.below(4),
            _ if large => index = index.max(random.pick(&[0, 65_532, 65_533, 65_534, 65_535])),
            _ => {}
        }
    }
    (records, index, classes)
}

/// Where the records begin, as far as their lengths lead, and the end.
fn boundaries(sheet: &[u8]) -> Vec<usize> {
    let (mut found, mut at) = (vec![], 0);
    while at < sheet.len() && found.len() < 20 {
        found.push(at);
        let length = sheet.get(at + 2..at + 4);
        let length = length.map_or(0, |two| usize::from(two[0]) << 8 | usize::from(two[1]));
        at += 4 + length;
    }
    found.push(sheet.len());
    found
}

/// Changes some bytes or some records of a sheet.
fn spoil(random: &mut Random, sheet: &mut Vec<u8>) {
    let (at, end) = if random.once_in(2) {
        let found = boundaries(sheet);
        let which = random.below(found.len() - 1);
        (found[which], found[(which + 1).min(found.len() - 1)])
    } else {
        let at = random.below(sheet.len());
        (at, (at + 1 + random.below(8)).min(sheet.len()))
    };
    match random.below(10) {
        0 => sheet.truncate(at),
        1 => drop(sheet.drain(at..end)),
        2 => {
            let copy = sheet[at..end].to_vec();
            sheet.splice(at..at, copy);
        }
        3 => sheet[at..end].reverse(),
        4 => sheet.extend(random.bytes(1 + end - at)),
        5 | 6 => {
            let marks = [
                b"LM", b"CD", b"KI", b"AR", b"ds", b"DS", b"DS", b"EX", b"EX",
            ];
            let mark = random.pick(&marks);
            let length = random.pick(&[0, 1, 3, 4, 4, 5, 7, 8, 8, 9, 11]);
            let body = match mark {
                b"DS" if length > 3 => descriptors::descriptor(random, 4, false).0,
                b"EX" if length == 8 => vec![0, 0, 0, 1, 0, 0, 0, random.pick(&[0, 0, 1, 2])],
                _ => random.bytes(length),
            };
            sheet.splice(at..at, record(mark, &body));
        }
        _ => {
            let place = at + random.below(8);
            if let Some(byte) = sheet.get_mut(place) {
                let any = random.next() as u8;
                *byte = random.pick(&[0, 1, 255, any, byte.wrapping_add(1), *byte ^ 128]);
            }
        }
    }
}

/// A sheet: a sample, one made here, or any bytes; a third of them spoiled.
pub fn sheet(random: &mut Random, large: bool) -> Vec<u8> {
    let mut sheet = match random.below(12) {
        _ if large => built(random, true),
        0 => {
            let length = random.below(30);
            random.bytes(length)
        }
        1..=5 => random.pick(&SAMPLES).to_vec(),
        _ => built(random, false),
    };
    if random.once_in(3) {
        for _ in 0..1 + random.below(3) {
            spoil(random, &mut sheet);
        }
    }
    sheet
}
