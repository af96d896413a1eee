//! Sheets with a descriptor: by hand, and at the limits of its numbers.
//!
//! A bad descriptor is followed by a record with an unknown mark, so that one that is taken for good gives 22. A good one
//! has as many argument words as it has places.

use super::{Samples, GOOD};
use crate::descriptor::{self, Descriptor};
use crate::lists::text::{about, number, rows};
use bytecode::records::{arguments, descriptor, record, sizes};
use bytecode::values;
use std::collections::BTreeSet;
use std::fmt::Display;

/// All of them.
pub fn all(samples: &mut Samples) -> Result<(), String> {
    for row in rows(include_str!("../../../lists/descriptors.txt")) {
        by_hand(samples, &row).map_err(about(row[0]))?;
    }
    dimensions(samples)?;
    places(samples)?;
    longest(samples)?;
    word_counts(samples);
    Ok(())
}

/// What a good descriptor says; 31 is none.
pub type Said = Option<Descriptor>;

/// A good descriptor's places and its return type.
pub fn good(places: usize, return_type: char) -> Said {
    Some(Descriptor {
        places,
        return_type,
    })
}

/// The sheet of a descriptor. It is an error unless the model finds in it what is said.
pub fn add(
    samples: &mut Samples,
    name: impl Display,
    said: Said,
    bytes: impl AsRef<[u8]>,
) -> Result<(), String> {
    let bytes = bytes.as_ref();
    let found = descriptor::read(bytes);
    if found != said {
        return Err(format!("{name} says {found:?}"));
    }
    let name = format!("DS_{name}");
    match said {
        Some(Descriptor { places, .. }) => {
            with_words(samples, name, GOOD, bytes, [places, places]);
        }
        None => {
            let records = [sizes(2, 3), descriptor(bytes), record(b"XX", &[])];
            samples.add_sheet(name, 31, records.concat());
        }
    }
    Ok(())
}

/// A sheet with so many locals and so many argument words, and a slot past the frame.
fn with_words(samples: &mut Samples, name: String, gives: u32, bytes: &[u8], many: [usize; 2]) {
    let [max_locals, words] = many;
    let words: Vec<u32> = (0..words as u32).map(|word| 0x8000_0002 + word).collect();
    let records = [
        sizes(2, max_locals as u16),
        descriptor(bytes),
        record(b"CD", &[0x06, 0xAC]),
        arguments(&words),
    ];
    let sample = samples.add_sheet(name, gives, records.concat());
    sample.slots(2 + max_locals + 1);
}

fn by_hand(samples: &mut Samples, row: &[&str]) -> Result<(), String> {
    let [name, said, text] = row else {
        return Err("a descriptor has three columns".to_string());
    };
    let said = match said.split_once(' ') {
        Some((places, letter)) => good(number(places)?, number(letter)?),
        None if *said == "31" => None,
        None => return Err(format!("{said} is neither a good descriptor nor 31")),
    };
    add(samples, name, said, bytes_of(text)?)
}

/// The bytes of ASCII with `\` and two hexadecimal digits for some.
fn bytes_of(text: &str) -> Result<Vec<u8>, String> {
    let mut parts = text.split('\\');
    let mut bytes = parts.next().unwrap_or_default().as_bytes().to_vec();
    for part in parts {
        let (digits, rest) = part.split_at_checked(2).ok_or("a byte has two digits")?;
        bytes.extend(values::bytes(digits)?);
        bytes.extend(rest.bytes());
    }
    Ok(bytes)
}

/// Arrays around 255 dimensions, taken, returned, and more than one of them.
fn dimensions(samples: &mut Samples) -> Result<(), String> {
    for many in [1, 128, 254, 255, 256, 257, 511, 512] {
        for (name, element) in [("ints", "I"), ("longs", "J"), ("classes", "La/b;")] {
            let array = "[".repeat(many) + element;
            for (how, text, said) in [
                ("takes", format!("({array})V"), good(1, 'V')),
                ("returns", format!("(){array}"), good(0, 'L')),
                ("thrice", format!("(I{array}{array}){array}"), good(3, 'L')),
            ] {
                let said = said.filter(|_| many <= 255);
                add(samples, format!("{how}_{many}_of_{name}"), said, text)?;
            }
        }
    }
    Ok(())
}

/// Parameters around 255 places, filled up with bytes behind them and before them, and some without an end.
fn places(samples: &mut Samples) -> Result<(), String> {
    for (name, part, size) in [
        ("I", "I", 1),
        ("J", "J", 2),
        ("D", "D", 2),
        ("array", "[J", 1),
        ("class", "La;", 1),
        ("IJ", "IJ", 3),
    ] {
        for many in [252, 253, 254, 255, 256, 257, 510, 512] {
            let (parts, rest) = (part.repeat(many / size), "B".repeat(many % size));
            let said = good(many, 'S').filter(|_| many <= 255);
            let text = format!("({parts}{rest})S");
            add(samples, format!("{many}_places_of_{name}"), said, text)?;
            if !rest.is_empty() {
                let text = format!("({rest}{parts})S");
                add(samples, format!("{many}_places_before_{name}"), said, text)?;
            }
        }
    }
    let endless = format!("({}", "J".repeat(300));
    add(samples, "places_without_an_end", None, endless)?;
    let all = format!("({})", "I".repeat(255));
    add(samples, "255_places_without_a_return", None, all)
}

/// Names as long as a record can hold, one of them with a wrong byte at its end.
fn longest(samples: &mut Samples) -> Result<(), String> {
    let named = |end: &str| {
        let around = "(L;)B".len() + end.len();
        let name = "a/".repeat(65_535);
        format!("(L{}{end};)B", &name[..65_535 - around])
    };
    add(samples, "longest", good(1, 'B'), named("bb"))?;
    add(samples, "longest_with_a_period", None, named("b."))?;
    let endless = format!("()L{}", "a".repeat(1_000));
    add(samples, "long_without_a_semicolon", None, endless)
}

/// Argument words: as many as there are places, fewer and more, with a local for each place and one more.
fn word_counts(samples: &mut Samples) {
    for (kind, text, places) in [
        ("none", "()V", 0),
        ("int", "(I)B", 1),
        ("long", "(J)C", 2),
        ("class", "([La;)La;", 1),
        ("int_long", "(IJ)Z", 3),
        ("array_of_longs", "([JI)S", 2),
        ("all", "(BCDFIJSZ)V", 10),
        ("255", &format!("({}J)V", "[D".repeat(253)), 255),
    ] {
        let counts = [0, 1, 2, places.max(1) - 1, places, places + 1, 2 * places];
        for words in BTreeSet::from(counts) {
            for max_locals in [places, places + 1] {
                let gives = match words {
                    _ if words > max_locals => 27,
                    _ if words != places => 31,
                    _ => GOOD,
                };
                let name = format!("words_{words}_of_{max_locals}_for_{kind}");
                with_words(samples, name, gives, text.as_bytes(), [max_locals, words]);
            }
        }
    }
}
