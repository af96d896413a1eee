//! What this program asks of lent parts: guards of any elements, other lengths, and a description.

use super::memory::{Function, Lent, Memory, GUARD};
use super::random::Random;
use std::fmt::UpperHex;

/// Parts up to this length are printed.
const SHORT: usize = 400;

/// Bytes and words.
pub trait Element: Copy + Default + PartialEq + UpperHex {
    fn any(random: &mut Random) -> Self;
}

impl Element for u8 {
    fn any(random: &mut Random) -> u8 {
        random.next() as u8
    }
}

impl Element for u32 {
    fn any(random: &mut Random) -> u32 {
        random.next() as u32
    }
}

impl<T: Element> Lent<T> {
    /// A part between guards of any elements, up to three more before it than after it, so that
    /// parts begin at every alignment that their elements may have. A bare part has no guards and
    /// is a block of memory of its own: a tool that watches the heap then sees what is read outside
    /// of it.
    pub fn guarded(part: &[T], random: &mut Random, bare: bool) -> Lent<T> {
        if bare {
            return Lent::between(&[], part, &[]);
        }
        let many = GUARD + random.below(4);
        let mut guards = |many: usize| (0..many).map(|_| T::any(random)).collect::<Vec<T>>();
        Lent::between(&guards(many), part, &guards(GUARD))
    }

    pub fn is_bare(&self) -> bool {
        self.guards()[0].is_empty()
    }

    /// The same part of another length, filled up with any elements.
    pub fn resize(&mut self, length: usize, random: &mut Random) {
        let mut part = self.part().to_vec();
        part.truncate(length);
        while part.len() < length {
            part.push(T::any(random));
        }
        *self = Lent::guarded(&part, random, self.is_bare());
    }

    fn hexadecimal(&self) -> String {
        let width = 2 * size_of::<T>();
        let part = self.part();
        if part.len() > SHORT {
            return "not shown".to_string();
        }
        let gap = if width == 2 { "" } else { " " };
        let digits = part
            .iter()
            .map(|element| format!("{element:0width$X}{gap}"));
        digits.collect::<String>().trim_end().to_string()
    }
}

impl Memory {
    /// A state's word, and 0 where it has fewer words.
    pub fn state_word(&self, place: usize) -> u32 {
        self.state.part().get(place).copied().unwrap_or(0)
    }

    pub fn count(&self) -> u64 {
        u64::from(self.state_word(4)) | u64::from(self.state_word(5)) << 32
    }

    /// How many slots the frame has.
    pub fn frame(&self) -> usize {
        self.state_word(0) as usize + self.state_word(1) as usize
    }

    /// What a function is lent of this memory, in hexadecimal.
    pub fn describe(&self, function: Function) -> String {
        use Function::{Back, Forward, Load, Presses, Run};
        let line = |name: &str, length: usize, digits: String| {
            format!("  {name:9}{length:7}  {digits}")
                .trim_end()
                .to_string()
        };
        let mut lines = vec![line("sheet", self.sheet.len(), self.sheet.hexadecimal())];
        if function != Load {
            let from = format!("from byte {} of the sheet", self.code.start);
            lines.push(line("code", self.code.len(), from));
        }
        lines.push(line("kinds", self.kinds.len(), self.kinds.hexadecimal()));
        lines.push(line("words", self.words.len(), self.words.hexadecimal()));
        if !matches!(function, Load | Back) {
            let handlers = &self.handlers;
            lines.push(line("handlers", handlers.len(), handlers.hexadecimal()));
        }
        lines.push(line("slots", self.slots.len(), self.slots.hexadecimal()));
        if matches!(function, Forward | Back | Presses) {
            lines.push(line("log", self.log.len(), self.log.hexadecimal()));
        }
        lines.push(line("state", self.state.len(), self.state.hexadecimal()));
        if !matches!(function, Back | Presses) {
            lines.push(line("answer", self.answer.len(), self.answer.hexadecimal()));
        }
        if function == Presses {
            let (presses, answers) = (&self.presses, &self.answers);
            lines.push(line("presses", presses.len(), presses.hexadecimal()));
            lines.push(line("answers", answers.len(), answers.hexadecimal()));
        }
        if function == Run {
            lines.push(format!("  budget   {:7}", self.budget));
        }
        lines.join("\n")
    }
}
