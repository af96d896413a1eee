//! How much memory the method of a sheet needs, so that a walk of ten bytes keeps ten bytes' worth.

/// Lengths of the lent parts.
#[derive(Debug, Default, PartialEq, Eq)]
pub(crate) struct Room {
    /// The locals, then the places of the operand stack.
    pub slots: usize,
    /// The constant pool up to its highest index.
    pub pool: usize,
}

impl Room {
    /// Reads sizes and indices as far as there are whole records. The library decides what a sheet
    /// is: one that it refuses is refused in any memory, because memory is its last question.
    pub fn of(sheet: &[u8]) -> Room {
        let mut room = Room::default();
        let mut rest = sheet;
        while let Some((mark, body, after)) = record(rest) {
            match (mark, body) {
                (b"LM", &[s0, s1, l0, l1]) => room.slots = number(s0, s1) + number(l0, l1),
                // The indices rise. A value of eight bytes takes the next index too.
                (b"KI", &[i0, i1, _, ref value @ ..]) => {
                    room.pool = number(i0, i1) + value.len().div_ceil(4);
                }
                _ => {}
            }
            rest = after;
        }
        room
    }
}

fn number(high: u8, low: u8) -> usize {
    usize::from(u16::from_be_bytes([high, low]))
}

/// The first record's mark and body, and the bytes after it.
fn record(bytes: &[u8]) -> Option<(&[u8; 2], &[u8], &[u8])> {
    let (mark, rest) = bytes.split_first_chunk()?;
    let (&[high, low], rest) = rest.split_first_chunk()?;
    let (body, after) = rest.split_at_checked(number(high, low))?;
    Some((mark, body, after))
}

#[cfg(test)]
mod tests {
    use super::*;

    #[test]
    fn sizes_and_the_highest_index_are_counted() {
        let sizes = b"LM\x00\x04\x01\x02\x00\x03";
        let descriptor = b"DS\x00\x03()V";
        let int = b"KI\x00\x07\x00\x05\x03\0\0\0\0";
        let long = b"KI\x00\x0B\x00\x09\x05\0\0\0\0\0\0\0\0";
        let class = b"KI\x00\x07\x00\x0B\x07\0\0\0\x01";
        let handler = b"EX\x00\x08\x00\x00\x00\x01\x00\x00\x00\x0B";
        let room = |records: &[&[u8]]| {
            let Room { slots, pool } = Room::of(&records.concat());
            (slots, pool)
        };
        assert_eq!(room(&[]), (0, 0));
        assert_eq!(room(&[sizes]), (0x105, 0));
        assert_eq!(room(&[sizes, int]), (0x105, 6));
        assert_eq!(room(&[sizes, descriptor, int]), (0x105, 6));
        assert_eq!(room(&[sizes, int, long]), (0x105, 11));
        // A class takes one index, and a handler nothing.
        assert_eq!(room(&[sizes, int, long, class, handler]), (0x105, 12));
        // A record that is cut off counts for nothing.
        assert_eq!(room(&[sizes, int, &long[..14]]), (0x105, 6));
    }
}
