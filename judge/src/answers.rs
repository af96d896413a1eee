//! What a step, a press and a run answer.

use crate::returns::narrowed;
use std::fmt;

/// The number of include/workbook.h, and a value's low and high word.
#[derive(Clone, Copy, Debug, PartialEq, Eq)]
pub struct Answer {
    /// 0, a refusal, a return, an exception or the end of a budget.
    pub number: u32,
    /// The value's low word, 0 where there is no value.
    pub low: u32,
    /// Its high word, 0 of one word.
    pub high: u32,
}

impl Answer {
    /// An ordinary step, or a press that was made.
    pub const GRANTED: Answer = Answer::without_value(0);
    /// An ArithmeticException that nothing catches.
    pub const THROW: Answer = Answer::without_value(110);
    /// The budget is used up.
    pub const STOPPED: Answer = Answer::without_value(120);

    /// A refusal with its number.
    pub const fn refused(number: u32) -> Answer {
        Answer::without_value(number)
    }

    /// A return with its number and the words of its value.
    pub const fn returned(number: u32, low: u32, high: u32) -> Answer {
        Answer { number, low, high }
    }

    /// The same of a method of a return type: an int is narrowed to it.
    pub fn of_type(self, return_type: u32) -> Answer {
        match self.number {
            101 => Answer::returned(101, narrowed(return_type, self.low), 0),
            _ => self,
        }
    }

    const fn without_value(number: u32) -> Answer {
        Answer::returned(number, 0, 0)
    }

    /// Whether a question was answered with no.
    pub fn is_refusal(self) -> bool {
        (1..=99).contains(&self.number)
    }

    /// The three words of an answer.
    pub fn words(self) -> [u32; 3] {
        [self.number, self.low, self.high]
    }

    /// The value in hexadecimal, 8 or 16 digits; empty where there is none.
    pub fn value(self) -> String {
        match self.number {
            101..=103 => format!("{:08X}", self.low),
            104 | 105 => format!("{:08X}{:08X}", self.high, self.low),
            _ => String::new(),
        }
    }
}

/// The last line of a printed walk (docs/RULES.md).
impl fmt::Display for Answer {
    fn fmt(&self, f: &mut fmt::Formatter<'_>) -> fmt::Result {
        let kind = match self.number {
            0 => return write!(f, "granted"),
            101 => "int",
            102 => "float",
            103 => "ref",
            104 => "long",
            105 => "double",
            106 => return write!(f, "return void"),
            110 => return write!(f, "throw arithmetic"),
            120 => return write!(f, "stopped"),
            number => return write!(f, "refused {number}"),
        };
        write!(f, "return {kind} {}", self.value())
    }
}

/// Goes on where the answer to a question is yes.
pub(crate) fn ask(yes: bool, number: u32) -> Result<(), u32> {
    yes.then_some(()).ok_or(number)
}
