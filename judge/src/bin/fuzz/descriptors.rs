//! Method descriptors: good, nearly good and bad.

use super::random::Random;

const NAMES: [&[u8]; 12] = [
    b"a",
    b"L",
    b"V)I",
    b"<init>",
    b"a/b",
    b"java/lang/String",
    b"\xC0\x80",
    b"\xC2\x80",
    b"\xE0\xA0\x80",
    b"\xED\xA0\x80",
    b"\xEF\xBF\xBF",
    b"\xED\xA0\xBD\xED\xB8\x80",
];

/// Bytes at which something ends, begins or is refused.
const BYTES: [u8; 28] = *b"()[LVIJDZB;;/.a\x00\x01\x7F\x80\xBF\xC0\xC1\xC2\xE0\xED\xEF\xF0\xFF";

/// A field type, and how many places it takes. A large one may have too many dimensions.
fn field_type(random: &mut Random, large: bool) -> (Vec<u8>, usize) {
    let dimensions = match random.below(8) {
        0 if large => random.around(255),
        0 | 1 => 1 + random.below(3),
        _ => 0,
    };
    let element = match random.below(4) {
        0 => [&b"L"[..], random.pick(&NAMES), b";"].concat(),
        _ => vec![random.pick(b"BCDFIJSZ")],
    };
    let two = dimensions == 0 && matches!(element[0], b'J' | b'D');
    let places = 1 + usize::from(two);
    ([vec![b'['; dimensions], element].concat(), places)
}

/// A good descriptor, but for numbers that may be too large, and the places of its parameters.
fn right(random: &mut Random, room: usize, large: bool) -> (Vec<u8>, usize) {
    let most = if large { random.around(255) } else { room };
    let wanted = if random.once_in(2) {
        most
    } else {
        random.below(most + 1)
    };
    let (mut text, mut places) = (vec![b'('], 0);
    while places < wanted {
        let (parameter, more) = field_type(random, large);
        if places + more <= wanted || random.once_in(8) {
            text.extend(parameter);
            places += more;
        }
    }
    text.push(b')');
    match random.below(6) {
        0 => text.push(b'V'),
        _ => text.extend(field_type(random, large).0),
    }
    (text, places)
}

/// Removes, doubles, replaces or puts in a byte, or cuts the end off.
fn spoil(random: &mut Random, text: &mut Vec<u8>) {
    let (place, any) = (random.below(text.len()), random.next() as u8);
    let known = random.pick(&BYTES);
    let byte = random.pick(&[known, known, known, any]);
    match random.below(6) {
        _ if text.is_empty() => text.push(byte),
        0 => drop(text.remove(place)),
        1 => text.insert(place, text[place]),
        2 => text.insert(place, byte),
        3 => text.push(byte),
        4 => text.truncate(place),
        _ => text[place] = byte,
    }
}

/// A descriptor of parameters that mostly fit so many places, a quarter of them spoiled, and its places before that.
pub fn descriptor(random: &mut Random, room: usize, large: bool) -> (Vec<u8>, usize) {
    let (mut text, places) = right(random, room, large);
    if random.once_in(4) {
        for _ in 0..1 + random.below(2) {
            spoil(random, &mut text);
        }
    }
    (text, places)
}
