//! A char: a literal (JLS 3.10.4), or the number of its UTF-16 unit.

use super::integer;

/// The unit of a char.
pub(super) fn unit(text: &str) -> Result<u16, String> {
    let quoted = text
        .strip_prefix('\'')
        .and_then(|rest| rest.strip_suffix('\''));
    if let Some(inside) = quoted {
        return of_literal(inside).ok_or_else(|| format!("{text} is no char"));
    }
    let mut letters = text.chars();
    match (letters.next(), letters.next()) {
        // A shell takes quotes away, and then nobody can tell '5' from 5.
        (Some(digit), None) if digit.is_ascii_digit() => Err(format!(
            "{text} may be a character or a number: write \"'{text}'\" with both quotes, or 0x{text}"
        )),
        (Some(letter), None) => of_letter(letter).ok_or_else(|| format!("{text} is no char")),
        _ => {
            let number = integer::int(text, "char", 0..=0xFFFF)?;
            u16::try_from(number).map_err(|_| format!("{text} is no char"))
        }
    }
}

/// One of the letters that have one unit.
fn of_letter(letter: char) -> Option<u16> {
    u16::try_from(u32::from(letter)).ok()
}

/// What stands between the quotes.
fn of_literal(inside: &str) -> Option<u16> {
    let Some(escape) = inside.strip_prefix('\\') else {
        let mut letters = inside.chars();
        let (letter, none) = (letters.next()?, letters.next());
        return (none.is_none() && letter != '\'')
            .then(|| of_letter(letter))
            .flatten();
    };
    Some(match escape {
        "b" => 0x08,
        "t" => 0x09,
        "n" => 0x0A,
        "f" => 0x0C,
        "r" => 0x0D,
        "s" => 0x20,
        "\"" | "'" | "\\" => escape.bytes().next()?.into(),
        _ if escape.starts_with('u') => digits(escape.trim_start_matches('u'), 16, 4..=4)?,
        _ => digits(escape, 8, 1..=3).filter(|unit| *unit <= 0o377)?,
    })
}

/// A number of so many digits.
fn digits(text: &str, radix: u32, many: std::ops::RangeInclusive<usize>) -> Option<u16> {
    let whole = many.contains(&text.len()) && text.chars().all(|digit| digit.is_digit(radix));
    whole
        .then(|| u16::from_str_radix(text, radix).ok())
        .flatten()
}

#[cfg(test)]
mod tests {
    use super::*;

    #[test]
    fn a_literal_a_letter_or_a_number() {
        for (text, found) in [
            ("'c'", 0x63),
            ("'5'", 0x35),
            ("'ß'", 0xDF),
            ("'€'", 0x20AC),
            ("'\"'", 0x22),
            ("'\\n'", 0x0A),
            ("'\\''", 0x27),
            ("'\\\\'", 0x5C),
            ("'\\u0041'", 0x41),
            ("'\\uuFFFF'", 0xFFFF),
            ("'\\0'", 0),
            ("'\\377'", 0xFF),
            ("c", 0x63),
            ("65", 65),
            ("0x5", 5),
            ("65535", 0xFFFF),
        ] {
            assert_eq!(unit(text), Ok(found), "{text}");
        }
    }

    #[test]
    fn what_is_none_is_said() {
        for text in [
            "''",
            "'''",
            "'ab'",
            "'\u{1F600}'",
            "\u{1F600}",
            "'\\x'",
            "'\\u004'",
            "'\\400'",
            "'\\u+041'",
            "ab",
            "",
        ] {
            assert_eq!(unit(text), Err(format!("{text} is no char")));
        }
        let range = "65536 is no char: 0 to 65535";
        assert_eq!(unit("65536"), Err(range.to_string()));
        assert_eq!(unit("-1"), Err("-1 is no char: 0 to 65535".to_string()));
        let both = "5 may be a character or a number: write \"'5'\" with both quotes, or 0x5";
        assert_eq!(unit("5"), Err(both.to_string()));
    }
}
