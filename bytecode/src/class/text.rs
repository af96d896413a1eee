//! The texts of a class file, which are in modified UTF-8 (JVMS 4.4.7).

/// A text, to be shown and to be compared with what a user writes. What is no character, and a
/// control character, which a terminal would obey, is a replacement character here.
pub(super) fn decode(bytes: &[u8]) -> String {
    let (mut units, mut rest) = (vec![], bytes);
    while let Some((unit, after)) = unit(rest) {
        units.push(unit);
        rest = after;
    }
    let text = String::from_utf16_lossy(&units);
    let shown = |letter: char| {
        if letter.is_control() {
            char::REPLACEMENT_CHARACTER
        } else {
            letter
        }
    };
    text.chars().map(shown).collect()
}

/// What a user writes, as a class file has it.
pub(super) fn encode(text: &str) -> Vec<u8> {
    let mut bytes = vec![];
    for unit in text.encode_utf16() {
        let low = |shift: u16| (unit >> shift & 0x3F) as u8 | 0x80;
        match unit {
            0x01..=0x7F => bytes.push(unit as u8),
            0 | 0x80..=0x7FF => bytes.extend([(unit >> 6) as u8 | 0xC0, low(0)]),
            _ => bytes.extend([(unit >> 12) as u8 | 0xE0, low(6), low(0)]),
        }
    }
    bytes
}

/// The first UTF-16 unit, and the bytes after it.
fn unit(bytes: &[u8]) -> Option<(u16, &[u8])> {
    let low = |byte: u8| u16::from(byte & 0x3F);
    Some(match *bytes {
        [] => return None,
        [a @ 0x01..=0x7F, ref rest @ ..] => (a.into(), rest),
        [a @ 0xC0..=0xDF, b @ 0x80..=0xBF, ref rest @ ..] => {
            (u16::from(a & 0x1F) << 6 | low(b), rest)
        }
        [a @ 0xE0..=0xEF, b @ 0x80..=0xBF, c @ 0x80..=0xBF, ref rest @ ..] => {
            (u16::from(a & 0x0F) << 12 | low(b) << 6 | low(c), rest)
        }
        [_, ref rest @ ..] => (0xFFFD, rest),
    })
}

#[cfg(test)]
mod tests {
    use super::*;

    #[test]
    fn one_to_three_bytes_and_pairs() {
        assert_eq!(decode("größe€".as_bytes()), "größe€");
        // U+1F600 as its two surrogates, three bytes each.
        assert_eq!(decode(b"a\xED\xA0\xBD\xED\xB8\x80b"), "a\u{1F600}b");
        for text in ["größe€", "a\u{1F600}b", "\u{7FF}\u{800}", ""] {
            assert_eq!(decode(&encode(text)), text);
        }
        assert_eq!(encode("\0é€"), b"\xC0\x80\xC3\xA9\xE2\x82\xAC");
    }

    #[test]
    fn what_cannot_be_shown_is_replaced() {
        // A byte that begins nothing, a sequence that is cut off, half a pair, an escape, a zero.
        assert_eq!(decode(b"a\xFFb\xE2\x82"), "a\u{FFFD}b\u{FFFD}\u{FFFD}");
        assert_eq!(decode(b"\xED\xA0\xBD!"), "\u{FFFD}!");
        assert_eq!(decode(b"\x1B[2J\xC0\x80"), "\u{FFFD}[2J\u{FFFD}");
    }
}
