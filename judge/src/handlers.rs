//! A throw at an offset: which entry of the exception table takes an ArithmeticException, and the step that
//! catches it (docs/RULES.md, 'Handlers'; JVMS 2.10, 4.7.3).

use crate::answers::{ask, Answer};
use crate::operations::Few;
use crate::step::{Effect, Method, State};

/// The bytes of an entry in the handlers' part, which are those of its record: a mark and a length, which
/// nobody looks at, and four numbers.
pub const ENTRY: usize = 12;

/// The word that stands for the exception.
const EXCEPTION: u32 = 1;

/// An entry of the exception table.
#[derive(Clone, Copy, Debug, PartialEq, Eq)]
pub struct Entry {
    /// The first offset that it covers.
    pub start: usize,
    /// The first one after it that it does not cover.
    pub end: usize,
    /// Where the handler begins.
    pub handler: usize,
    /// 0, or the index of a class.
    pub catch_type: usize,
}

/// The entries of a handlers' part, in their order. Bytes at its end that make no whole entry are none.
pub fn entries(part: &[u8]) -> impl Iterator<Item = Entry> + '_ {
    part.chunks_exact(ENTRY).map(|bytes| {
        let short = |at: usize| usize::from(u16::from_be_bytes([bytes[at], bytes[at + 1]]));
        Entry {
            start: short(4),
            end: short(6),
            handler: short(8),
            catch_type: short(10),
        }
    })
}

impl Entry {
    fn covers(&self, offset: usize) -> bool {
        self.start <= offset && offset < self.end
    }

    /// Whether it takes an ArithmeticException: catch type 0 takes all, a class what can be assigned to it.
    fn takes(&self, kinds: &[u8], words: &[u32]) -> bool {
        let index = self.catch_type;
        index == 0 || (kinds.get(index) == Some(&7) && words.get(index) == Some(&1))
    }
}

/// What an ArithmeticException at an offset comes to: the step that catches it, or the answer that ends
/// the walk. Question 11 belongs to whoever has a log.
pub fn throw(method: &Method, state: &State, offset: usize) -> Result<Effect, Answer> {
    let taken = entries(method.handlers)
        .find(|entry| entry.covers(offset) && entry.takes(method.kinds, method.words));
    let entry = taken.ok_or(Answer::THROW)?;
    ask(1 <= state.max_stack, 8).map_err(Answer::refused)?;
    ask(entry.handler < method.code.len(), 11).map_err(Answer::refused)?;
    Ok(Effect {
        pc: entry.handler as u32,
        depth: 1,
        first: state.max_locals as usize,
        written: Few::of(&[EXCEPTION]),
    })
}

#[cfg(test)]
mod tests {
    use super::*;
    use bytecode::records::handler;

    const KINDS: [u8; 5] = [7, 7, 7, 3, 7];
    const WORDS: [u32; 5] = [1, 1, 0, 1, 2];

    /// Where a throw goes in a code of nine bytes with these handlers, or the number that it gives.
    fn goes(handlers: &[u8], max_stack: u32, offset: usize) -> Result<u32, u32> {
        let method = Method {
            code: &[0; 9],
            kinds: &KINDS,
            words: &WORDS,
            handlers,
        };
        let state = State {
            max_stack,
            max_locals: 3,
            ..State::default()
        };
        let thrown = throw(&method, &state, offset).map_err(|answer| answer.number);
        thrown.map(|effect| {
            assert_eq!((effect.depth, effect.first), (1, 3));
            assert_eq!(effect.written.words(), [1]);
            effect.pc
        })
    }

    #[test]
    fn an_entry_covers_its_start_and_not_its_end() {
        let part = handler([3, 5, 8, 0]);
        let gives = [2, 3, 4, 5].map(|offset| goes(&part, 2, offset));
        assert_eq!(gives, [Err(110), Ok(8), Ok(8), Err(110)]);
        for empty in [[4, 4, 8, 0], [5, 3, 8, 0]] {
            assert_eq!(goes(&handler(empty), 2, 4), Err(110));
        }
    }

    #[test]
    fn a_class_with_word_1_takes_it() {
        let gives = |catch_type| goes(&handler([0, 9, 8, catch_type]), 2, 0);
        assert_eq!([0, 1].map(gives), [Ok(8); 2]);
        assert_eq!([2, 3, 4, 5, 65_535].map(gives), [Err(110); 5]);
    }

    #[test]
    fn the_first_that_covers_and_takes_it_wins() {
        let entries = [[4, 9, 1, 0], [0, 9, 2, 2], [0, 1, 3, 1], [0, 9, 4, 0]].map(handler);
        assert_eq!(goes(&entries.concat(), 2, 0), Ok(3));
        assert_eq!(goes(&entries.concat(), 2, 1), Ok(4));
        assert_eq!(goes(&entries.concat(), 2, 4), Ok(1));
    }

    #[test]
    fn marks_lengths_and_a_short_rest_are_not_looked_at() {
        let mut part = [handler([0, 1, 2, 0]), handler([1, 2, 3, 0])].concat();
        part[..4].fill(0xFF);
        assert_eq!(goes(&part, 2, 0), Ok(2));
        assert_eq!(goes(&part, 2, 1), Ok(3));
        assert_eq!(goes(&part[..23], 2, 1), Err(110));
        assert_eq!(goes(&[], 2, 0), Err(110));
    }

    #[test]
    fn a_catch_has_room_for_a_word_and_a_handler_in_the_code() {
        assert_eq!(goes(&handler([0, 9, 8, 0]), 0, 0), Err(8));
        assert_eq!(goes(&handler([0, 9, 8, 0]), 1, 0), Ok(8));
        assert_eq!(goes(&handler([0, 9, 9, 0]), 1, 0), Err(11));
        assert_eq!(goes(&handler([0, 9, 9, 0]), 0, 0), Err(8));
        // A later entry does not stand in for one whose handler is outside.
        let part = [[0, 9, 9, 0], [0, 9, 0, 0]].map(handler).concat();
        assert_eq!(goes(&part, 1, 0), Err(11));
        assert_eq!(goes(&handler([0, 9, 9, 2]), 0, 0), Err(110));
    }
}
