//! Method descriptors: the grammar of JVMS 4.3.2 and 4.3.3, class names as 4.2.1 and 4.2.2 have them, in
//! the modified UTF-8 of 4.4.7.

/// What a good method descriptor says.
#[derive(Clone, Copy, Debug, PartialEq, Eq)]
pub struct Descriptor {
    /// How many places the parameters take.
    pub places: usize,
    /// The first character of the return type, `L` for `[`.
    pub return_type: char,
}

/// The limits of an array type's dimensions (4.3.2) and of the parameters' places (4.3.3).
const MOST_DIMENSIONS: usize = 255;
const MOST_PLACES: usize = 255;

/// Reads a method descriptor, parameters and return type and nothing after it. None of a bad one.
pub fn read(bytes: &[u8]) -> Option<Descriptor> {
    let points = code_points(bytes)?;
    let mut rest = points.strip_prefix(&[Point::from('(')])?;
    let mut places = 0;
    while rest.first() != Some(&Point::from(')')) {
        let (parameter, after) = field_type(rest)?;
        places += places_of(parameter);
        rest = after;
    }
    let (return_type, after) = return_type(&rest[1..])?;
    let good = after.is_empty() && places <= MOST_PLACES;
    good.then_some(Descriptor {
        places,
        return_type,
    })
}

/// A code point. A surrogate is one, so that `char` does not do.
type Point = u32;

/// `V`, or a field type.
fn return_type(points: &[Point]) -> Option<(char, &[Point])> {
    match points.split_first() {
        Some((first, rest)) if *first == Point::from('V') => Some(('V', rest)),
        _ => field_type(points),
    }
}

/// The first character of a field type, `L` for an array's, and what comes after the type.
fn field_type(points: &[Point]) -> Option<(char, &[Point])> {
    let brackets = points.iter().take_while(|point| **point == '['.into());
    let dimensions = brackets.count();
    let (first, rest) = points[dimensions..].split_first()?;
    let first = char::from_u32(*first)?;
    let after = match first {
        'B' | 'C' | 'D' | 'F' | 'I' | 'J' | 'S' | 'Z' => rest,
        'L' => after_class_name(rest)?,
        _ => return None,
    };
    let kind = if dimensions == 0 { first } else { 'L' };
    (dimensions <= MOST_DIMENSIONS).then_some((kind, after))
}

/// What comes after the semicolon that ends a class name.
fn after_class_name(points: &[Point]) -> Option<&[Point]> {
    let semicolon = points.iter().position(|point| *point == ';'.into())?;
    let mut names = points[..semicolon].split(|point| *point == '/'.into());
    names
        .all(is_unqualified_name)
        .then_some(&points[semicolon + 1..])
}

/// At least one code point, and none of `.`, `;`, `[` and `/` (4.2.2).
fn is_unqualified_name(name: &[Point]) -> bool {
    let forbidden = ['.', ';', '[', '/'].map(Point::from);
    !name.is_empty() && !name.iter().any(|point| forbidden.contains(point))
}

/// How many places a value of a type takes.
fn places_of(first: char) -> usize {
    match first {
        'J' | 'D' => 2,
        _ => 1,
    }
}

/// The code points of modified UTF-8 (4.4.7). None where some byte is in no code point's form.
fn code_points(mut bytes: &[u8]) -> Option<Vec<Point>> {
    let mut points = vec![];
    while !bytes.is_empty() {
        let (point, length) = code_point(bytes)?;
        points.push(point);
        bytes = &bytes[length..];
    }
    Some(points)
}

/// The first code point and how many bytes it has: one for 1 to 7F, two for 0 and 80 to 7FF, three for
/// 800 to FFFF. The two halves of a supplementary character are a code point each.
fn code_point(bytes: &[u8]) -> Option<(Point, usize)> {
    let more = |place: usize| match bytes.get(place) {
        Some(byte @ 0x80..=0xBF) => Some(Point::from(byte & 0x3F)),
        _ => None,
    };
    let first = bytes[0];
    match first {
        0x01..=0x7F => Some((first.into(), 1)),
        0xC0..=0xDF => {
            let point = Point::from(first & 0x1F) << 6 | more(1)?;
            matches!(point, 0 | 0x80..).then_some((point, 2))
        }
        0xE0..=0xEF => {
            let point = Point::from(first & 0x0F) << 12 | more(1)? << 6 | more(2)?;
            (point >= 0x800).then_some((point, 3))
        }
        _ => None,
    }
}

#[cfg(test)]
mod tests {
    use super::*;

    fn said(text: &str) -> Option<(usize, char)> {
        read(text.as_bytes()).map(|said| (said.places, said.return_type))
    }

    #[test]
    fn each_type_has_its_places_and_its_return_type() {
        for first in "BCFISZ".chars() {
            assert_eq!(said(&format!("({first}){first}")), Some((1, first)));
        }
        for first in "DJ".chars() {
            assert_eq!(said(&format!("({first}){first}")), Some((2, first)));
            assert_eq!(said(&format!("([{first})[{first}")), Some((1, 'L')));
        }
        assert_eq!(said("()V"), Some((0, 'V')));
        assert_eq!(said("(La/b;[[La;J)La;"), Some((4, 'L')));
        assert_eq!(said("()[[I"), Some((0, 'L')));
    }

    #[test]
    fn nothing_is_missing_and_nothing_comes_after() {
        for bad in [
            "", "V", "I", "(", ")", "()", "(I", "(I)", "I)V", ")V", "(()V", "())V", "()VV", "()II",
            "()IV", "()V ", " ()V", "(V)V", "([V)V", "()[V", "([)V", "()[", "(I))", "()A", "(b)V",
            "()v", "(II", "()L", "()LA", "(LA)V", "()[LA", "(I,I)V", "()()V",
        ] {
            assert_eq!(said(bad), None, "{bad}");
        }
    }

    #[test]
    fn a_class_name_is_unqualified_names_between_slashes() {
        for good in [
            "A", "a/b", "a/b/c", "L", "(", ")", "V", "<init>", " ", "1", "-", "*", "\u{1}",
            "\u{7F}",
        ] {
            assert_eq!(said(&format!("(L{good};)V")), Some((1, 'V')), "{good}");
            assert_eq!(said(&format!("()L{good};")), Some((0, 'L')), "{good}");
        }
        for bad in [
            "", "/", "/a", "a/", "a//b", "a.b", ".", "[", "[a", "a[", "a/[b", "a;", ";",
        ] {
            assert_eq!(said(&format!("(L{bad};)V")), None, "{bad}");
            assert_eq!(said(&format!("()L{bad};")), None, "{bad}");
        }
    }

    #[test]
    fn dimensions_are_at_most_255() {
        for element in ["I", "J", "LA;"] {
            let array = |dimensions: usize| "[".repeat(dimensions) + element;
            assert_eq!(said(&format!("({})V", array(255))), Some((1, 'V')));
            assert_eq!(said(&format!("(){}", array(255))), Some((0, 'L')));
            assert_eq!(said(&format!("({})V", array(256))), None);
            assert_eq!(said(&format!("(){}", array(256))), None);
            let two = array(255) + &array(255);
            assert_eq!(said(&format!("({two})V")), Some((2, 'V')));
        }
    }

    #[test]
    fn places_are_at_most_255() {
        let of = |one: usize, long: usize, array: usize| {
            let parts = ["I".repeat(one), "J".repeat(long), "[D".repeat(array)];
            said(&format!("({})J", parts.concat())).map(|said| said.0)
        };
        for (one, long, array) in [
            (255, 0, 0),
            (1, 127, 0),
            (0, 0, 255),
            (253, 1, 0),
            (0, 127, 1),
        ] {
            assert_eq!(of(one, long, array), Some(255));
            assert_eq!(of(one + 1, long, array), None);
        }
        assert_eq!(of(0, 127, 0), Some(254));
        assert_eq!(of(0, 128, 0), None);
        assert_eq!(of(254, 1, 0), None);
    }

    #[test]
    fn bytes_are_modified_utf_8() {
        let named = |name: &[u8]| read(&[b"(L", name, b";)V"].concat()).is_some();
        #[rustfmt::skip]
        let good: [&[u8]; 13] = [
            &[0x01], &[0x7F], &[0xC0, 0x80], &[0xC2, 0x80], &[0xDF, 0xBF], &[0xE0, 0xA0, 0x80], &[0xE0, 0xBF, 0xBF],
            &[0xED, 0x9F, 0xBF], &[0xED, 0xA0, 0x80], &[0xED, 0xBF, 0xBF], &[0xED, 0xA0, 0xBD, 0xED, 0xB8, 0x80],
            &[0xEF, 0xBF, 0xBF], &[0xC3, 0xA9, b'/', 0xC0, 0x80],
        ];
        for name in good {
            assert!(named(name), "{name:X?}");
        }
        #[rustfmt::skip]
        let bad: [&[u8]; 23] = [
            &[0x00], &[b'a', 0x00], &[0x80], &[0xBF], &[0xC0, 0x81], &[0xC0, 0xAF], &[0xC1, 0x80], &[0xC1, 0xBF], &[0xC2],
            &[0xC2, 0x7F], &[0xC2, 0xC0], &[0xDF, 0xBF, 0xBF], &[0xE0, 0x80, 0x80], &[0xE0, 0x81, 0x81], &[0xE0, 0x9F, 0xBF],
            &[0xE1, 0x80], &[0xE1, 0x80, 0x7F], &[0xE1, 0xC0, 0x80], &[0xEF, 0xBF, 0xC0], &[0xEF], &[0xF0, 0x9F, 0x98, 0x80],
            &[0xF4, 0x80, 0x80, 0x80], &[0xFF],
        ];
        for name in bad {
            assert!(!named(name), "{name:X?}");
        }
        for bytes in [
            &b"()V\0"[..],
            b"()V\xC0\x80",
            b"(\xC0\x80)V",
            b"\xEF\xBB\xBF()V",
            b"()\xED\xA0\x80",
        ] {
            assert_eq!(read(bytes), None);
        }
    }
}
