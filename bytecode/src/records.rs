//! The records of a sheet (docs/RULES.md, 'The sheet').

/// A record: its mark, its length and its body. A body above 65,535 bytes has no record.
#[must_use]
pub fn record(mark: &[u8; 2], body: &[u8]) -> Vec<u8> {
    let length = u16::try_from(body.len()).expect("a body of at most 65,535 bytes");
    [mark, &length.to_be_bytes()[..], body].concat()
}

/// The record with the sizes.
#[must_use]
pub fn sizes(max_stack: u16, max_locals: u16) -> Vec<u8> {
    record(
        b"LM",
        &[max_stack.to_be_bytes(), max_locals.to_be_bytes()].concat(),
    )
}

/// The record with the method descriptor, good or not.
#[must_use]
pub fn descriptor(bytes: &[u8]) -> Vec<u8> {
    record(b"DS", bytes)
}

/// A constant's record.
#[must_use]
pub fn constant(index: u16, tag: u8, value: &[u8]) -> Vec<u8> {
    record(b"KI", &[&index.to_be_bytes()[..], &[tag], value].concat())
}

/// The record of a handler: start, end, handler and catch type.
#[must_use]
pub fn handler(fields: [u16; 4]) -> Vec<u8> {
    record(b"EX", fields.map(u16::to_be_bytes).as_flattened())
}

/// The record with the arguments.
#[must_use]
pub fn arguments(words: &[u32]) -> Vec<u8> {
    let body: Vec<u8> = words.iter().flat_map(|word| word.to_be_bytes()).collect();
    record(b"AR", &body)
}
