//! Handlers: records for a sheet, and parts that no load made.

use super::codes::{start, HANDLER};
use super::random::Random;
use bytecode::records::handler;
use judge::handlers::ENTRY;

/// What entries are made for.
pub struct Around<'a> {
    pub code: &'a [u8],
    /// How long the pool is.
    pub pool: usize,
    /// The indices of its classes.
    pub classes: Vec<usize>,
}

impl Around<'_> {
    /// An entry that a load takes, of a code that is not empty. It covers the offset, where that is in the
    /// code.
    fn right(&self, random: &mut Random, offset: usize) -> [usize; 4] {
        let last = self.code.len().saturating_sub(1);
        let at = offset.min(last);
        let first = [0, at, at - random.below(at.min(9) + 1)];
        let end = [at + 1, last + 1, at + 1 + random.below((last - at).min(9))];
        // The block at the end of a code is made to be a handler.
        let handler = [(last + 1).saturating_sub(HANDLER), start(random, self.code)];
        let catch_type = match random.below(2) {
            0 if !self.classes.is_empty() => random.pick(&self.classes),
            _ => 0,
        };
        [
            random.pick(&first),
            random.pick(&end),
            random.pick(&handler).min(last),
            catch_type,
        ]
    }

    /// Another number for a field: any, or one at a limit.
    fn other(&self, random: &mut Random, field: usize, offset: usize) -> usize {
        let limits = match field {
            3 => [self.pool, self.pool, 1],
            2 => [self.code.len(), self.code.len(), 0],
            _ => [offset, offset, self.code.len()],
        };
        match random.below(6) {
            0 => random.word() as usize,
            1 => random.below(limits[0] + 1),
            2 | 3 if field == 3 => random.below(self.pool),
            _ => {
                let limit = random.pick(&limits);
                random.around(limit)
            }
        }
    }

    /// An entry as its record, with a field changed once in so many times.
    fn entry(&self, random: &mut Random, offset: usize, wrong: usize) -> Vec<u8> {
        let mut fields = self.right(random, offset);
        while random.once_in(wrong) {
            let field = random.below(4);
            fields[field] = self.other(random, field, offset);
        }
        handler(fields.map(|field| field as u16))
    }
}

/// How many entries there are.
fn many(random: &mut Random, large: bool) -> usize {
    match random.below(8) {
        _ if large && random.once_in(4) => random.below(3_000),
        0 => random.below(12),
        1 | 2 => 2,
        3 => 3,
        _ => 1,
    }
}

/// The records of a sheet, seldom wrong.
pub fn records(random: &mut Random, around: &Around, large: bool) -> Vec<u8> {
    let many = many(random, large);
    let mut record = |_| {
        let offset = random.below(around.code.len());
        around.entry(random, offset, 48)
    };
    (0..many).flat_map(&mut record).collect()
}

/// A part to lend whose entries are often near an offset: any marks and lengths, a short rest, and seldom
/// any bytes.
pub fn part(random: &mut Random, around: &Around, offset: usize, large: bool) -> Vec<u8> {
    if random.once_in(16) {
        let length = random.below(4 * ENTRY);
        return random.bytes(length);
    }
    let mut part = vec![];
    for _ in 0..many(random, large) {
        let any = random.below(around.code.len());
        let offset = random.pick(&[offset, offset, offset, any]);
        part.extend(around.entry(random, offset, 3));
    }
    if random.once_in(2) {
        for entry in part.chunks_mut(ENTRY) {
            entry[..4].copy_from_slice(&random.bytes(4));
        }
    }
    match random.below(8) {
        0 => part.truncate(part.len() - random.below(ENTRY).min(part.len())),
        1 => {
            let rest = random.below(ENTRY);
            part.extend(random.bytes(rest));
        }
        _ => {}
    }
    part
}
