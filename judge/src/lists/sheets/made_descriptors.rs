//! Descriptors without a pattern: good ones, and others that differ from such by one byte or two. What these say is the
//! model's alone to find.

use super::descriptors::{add, good, Said};
use super::Samples;
use crate::descriptor;
use crate::lists::scatter::Scatter;

/// All of them.
pub fn all(samples: &mut Samples) -> Result<(), String> {
    let mut scatter = Scatter::of("descriptors");
    for k in 0..60 {
        let (text, said) = any_descriptor(&mut scatter);
        add(samples, format!("made_{k}"), said, text)?;
    }
    for k in 0..180 {
        let (mut text, _) = any_descriptor(&mut scatter);
        for _ in 0..=k % 2 {
            change(&mut scatter, &mut text);
        }
        let said = descriptor::read(&text);
        add(samples, format!("changed_{k}"), said, text)?;
    }
    Ok(())
}

/// Parts of class names: letters, what other grammars keep for themselves, and code points of two and three bytes.
const NAMES: [&[u8]; 16] = [
    b"a",
    b"Z",
    b"L",
    b"V",
    b"(",
    b")",
    b"<init>",
    b"$",
    b" ",
    b"]",
    b"\xC3\xA9",
    b"\xC0\x80",
    b"\xE2\x82\xAC",
    b"\xED\xA0\xBD",
    b"\xED\xB8\x80",
    b"\xEF\xBF\xBF",
];

/// A good field type, and its first character.
fn any_type(scatter: &mut Scatter) -> (Vec<u8>, char) {
    match scatter.bits(3) {
        0..=3 => {
            let base = b"BCDFIJSZ"[scatter.bits(3) as usize];
            (vec![base], base.into())
        }
        4 | 5 => {
            let mut text = vec![b'L'];
            for slashes in 0..=scatter.bits(2) % 3 {
                text.extend(vec![b'/'; usize::from(slashes > 0)]);
                for _ in 0..=scatter.bits(1) {
                    text.extend(NAMES[scatter.bits(4) as usize]);
                }
            }
            text.push(b';');
            (text, 'L')
        }
        _ => ([&b"["[..], &any_type(scatter).0].concat(), 'L'),
    }
}

/// A good descriptor, and what it says.
fn any_descriptor(scatter: &mut Scatter) -> (Vec<u8>, Said) {
    let (mut text, mut places) = (vec![b'('], 0);
    for _ in 0..scatter.bits(3) % 6 {
        let (part, first) = any_type(scatter);
        places += 1 + usize::from(matches!(first, 'J' | 'D'));
        text.extend(part);
    }
    text.push(b')');
    let (part, first) = match scatter.bits(2) {
        0 => (vec![b'V'], 'V'),
        _ => any_type(scatter),
    };
    text.extend(part);
    (text, good(places, first))
}

/// What a change puts in.
const BYTES: [u8; 32] = *b"()[[LLVVIJDZB;;//..a\x00\x01\x7F\x80\xBF\xC0\xC1\xC3\xE0\xED\xEF\xF0";

/// Removes, doubles, replaces or puts in a byte, moves it to the end, or cuts the end off.
fn change(scatter: &mut Scatter, text: &mut Vec<u8>) {
    let place = scatter.bits(8) as usize % text.len();
    let byte = BYTES[scatter.bits(5) as usize];
    match scatter.bits(3) {
        0 => drop(text.remove(place)),
        1 => text.insert(place, text[place]),
        2 | 3 => text[place] = byte,
        4 | 5 => text.insert(place, byte),
        6 => text[place..].rotate_left(1),
        _ => text.truncate(place.max(1)),
    }
}
