//! What comes back: values, answers to a press or a step, and the end of a run.

use crate::Refusal;
use std::fmt;

/// A returned value. A float and a double are kept as their bits, because a NaN's bits count too.
/// The kinds are those of the Java virtual machine, so that a `match` can name them all.
///
/// ```
/// use workbook_host::Value;
///
/// let half = Value::Float(0x3F00_0000);
/// assert_eq!(half.as_f64(), Some(0.5));
/// assert_eq!(half.to_string(), "float 3F000000 (0.5)");
/// assert_eq!(Value::Int(-1).to_string(), "int FFFFFFFF (-1)");
/// ```
#[derive(Clone, Copy, Debug, PartialEq, Eq, Hash)]
pub enum Value {
    /// An int; narrowed where the sheet's descriptor says boolean, byte, char or short.
    Int(i32),
    /// A float's bits; [`Value::as_f64`] gives its number.
    Float(u32),
    /// A reference's word, 0 for null.
    Reference(u32),
    /// A long.
    Long(i64),
    /// A double's bits; [`Value::as_f64`] gives its number.
    Double(u64),
    /// No value.
    Void,
}

impl Value {
    /// The number of a float or a double; a float's number is the same as a double. Nothing for
    /// other values.
    #[must_use]
    pub fn as_f64(self) -> Option<f64> {
        match self {
            Value::Float(bits) => Some(f64::from(f32::from_bits(bits))),
            Value::Double(bits) => Some(f64::from_bits(bits)),
            _ => None,
        }
    }
}

/// The kind and the value: bits in hexadecimal, then the number where they stand for one.
impl fmt::Display for Value {
    fn fmt(&self, f: &mut fmt::Formatter<'_>) -> fmt::Result {
        match *self {
            Value::Int(int) => write!(f, "int {int:08X} ({int})"),
            Value::Float(bits) => write!(f, "float {bits:08X} ({:?})", f32::from_bits(bits)),
            Value::Reference(0) => write!(f, "reference 00000000 (null)"),
            Value::Reference(word) => write!(f, "reference {word:08X}"),
            Value::Long(long) => write!(f, "long {long:016X} ({long})"),
            Value::Double(bits) => write!(f, "double {bits:016X} ({:?})", f64::from_bits(bits)),
            Value::Void => write!(f, "void"),
        }
    }
}

/// The answer to a step or a press.
///
/// ```
/// use workbook_host::{Answer, Refusal, Walk};
///
/// // ICONST_1, ICONST_0, IDIV.
/// let sheet = b"LM\x00\x04\x00\x02\x00\x00CD\x00\x03\x04\x03\x6CAR\x00\x00";
/// let mut walk = Walk::open(sheet.to_vec())?;
/// assert_eq!(walk.back(), Answer::Refused(Refusal::START));
/// assert_eq!(walk.forward(), Answer::Granted);
/// assert_eq!(walk.forward(), Answer::Granted);
/// // An outcome changes nothing, so it comes again.
/// assert_eq!(walk.forward(), Answer::Throw);
/// assert_eq!(walk.forward(), Answer::Throw);
/// # Ok::<(), Refusal>(())
/// ```
#[derive(Clone, Copy, Debug, PartialEq, Eq, Hash)]
#[must_use = "a press may be refused, and then nothing has changed"]
#[non_exhaustive]
pub enum Answer {
    /// The step or the press was made. A step to the handler that catches an exception is one too.
    Granted,
    /// The method returns here. Nothing was changed.
    Return(Value),
    /// An ArithmeticException that nothing catches. Nothing was changed.
    Throw,
    /// The step or the press was refused. Nothing was changed.
    Refused(Refusal),
}

impl fmt::Display for Answer {
    fn fmt(&self, f: &mut fmt::Formatter<'_>) -> fmt::Result {
        match self {
            Answer::Granted => write!(f, "granted"),
            Answer::Return(value) => write!(f, "return {value}"),
            Answer::Throw => write!(f, "throw ArithmeticException"),
            Answer::Refused(refusal) => write!(f, "refused {refusal}"),
        }
    }
}

/// Why a run ended.
///
/// ```
/// use workbook_host::{End, Value, Walk};
///
/// // ICONST_3, ICONST_4, IADD, IRETURN.
/// let sheet = b"LM\x00\x04\x00\x02\x00\x00CD\x00\x04\x06\x07\x60\xACAR\x00\x00";
/// let walk = Walk::open(sheet.to_vec())?;
/// assert_eq!(walk.run(2).ran.end, End::Stopped);
/// assert_eq!(walk.run(100).ran.end, End::Return(Value::Int(7)));
/// # Ok::<(), workbook_host::Refusal>(())
/// ```
#[derive(Clone, Copy, Debug, PartialEq, Eq, Hash)]
#[must_use = "a run may end in a refusal"]
#[non_exhaustive]
pub enum End {
    /// The budget is used up.
    Stopped,
    /// The method returns where the run stands.
    Return(Value),
    /// An ArithmeticException that nothing catches, where the run stands.
    Throw,
    /// The next step is refused.
    Refused(Refusal),
}

impl fmt::Display for End {
    fn fmt(&self, f: &mut fmt::Formatter<'_>) -> fmt::Result {
        match *self {
            End::Stopped => write!(f, "stopped"),
            End::Return(value) => Answer::Return(value).fmt(f),
            End::Throw => Answer::Throw.fmt(f),
            End::Refused(refusal) => Answer::Refused(refusal).fmt(f),
        }
    }
}

/// What a run reports.
///
/// ```
/// use workbook_host::{load, run, End, Parts, Ran};
///
/// // NOP, GOTO to the NOP: a method that does not end.
/// let sheet = b"LM\x00\x04\x00\x00\x00\x00CD\x00\x04\x00\xA7\xFF\xFFAR\x00\x00";
/// let mut loaded = load(sheet, &mut [], &mut [], &mut [])?;
/// let parts = Parts { code: &sheet[loaded.code], kinds: &[], words: &[], handlers: &[] };
/// let Ran { end, steps, .. } = run(parts, &mut [], &mut loaded.state, 1_001);
/// assert_eq!((end, steps, loaded.state.pc), (End::Stopped, 1_001, 1));
/// # Ok::<(), workbook_host::Refusal>(())
/// ```
#[derive(Clone, Copy, Debug, PartialEq, Eq, Hash)]
#[must_use = "a run may end in a refusal"]
#[non_exhaustive]
pub struct Ran {
    /// Why it ended.
    pub end: End,
    /// How many ordinary steps it took.
    pub steps: u64,
}

/// The two words of a value or of a count, low word first, as one number.
pub(crate) fn joined(low: u32, high: u32) -> u64 {
    u64::from(low) | u64::from(high) << 32
}

/// The answer to a step or a press, from its number and its value's words.
pub(crate) fn answer(number: u32, low: u32, high: u32) -> Answer {
    match number {
        0 => Answer::Granted,
        101 => Answer::Return(Value::Int(low as i32)),
        102 => Answer::Return(Value::Float(low)),
        103 => Answer::Return(Value::Reference(low)),
        104 => Answer::Return(Value::Long(joined(low, high) as i64)),
        105 => Answer::Return(Value::Double(joined(low, high))),
        106 => Answer::Return(Value::Void),
        110 => Answer::Throw,
        _ => Answer::Refused(refusal(number)),
    }
}

/// The end of a run, from its number and its value's words.
pub(crate) fn end(number: u32, low: u32, high: u32) -> End {
    if number == 120 {
        return End::Stopped;
    }
    match answer(number, low, high) {
        Answer::Return(value) => End::Return(value),
        Answer::Throw => End::Throw,
        Answer::Refused(refusal) => End::Refused(refusal),
        // A run has no number 0.
        Answer::Granted => unknown(number),
    }
}

/// The refusal with a number that the library gave.
pub(crate) fn refusal(number: u32) -> Refusal {
    Refusal::new(number).unwrap_or_else(|| unknown(number))
}

/// A number that the library's description does not have means that the archive is another
/// library's or another version's. No answer could be made of it, so the program ends here.
fn unknown(number: u32) -> ! {
    panic!("the library gave the number {number}, which its description does not have")
}

#[cfg(test)]
mod tests {
    use super::*;

    #[test]
    fn each_number_is_its_answer() {
        let (low, high) = (0xFFFF_FFFE, 0x8000_0001);
        let refused = Refusal::new(99).unwrap();
        let table = [
            (0, Answer::Granted),
            (99, Answer::Refused(refused)),
            (101, Answer::Return(Value::Int(-2))),
            (102, Answer::Return(Value::Float(low))),
            (103, Answer::Return(Value::Reference(low))),
            (104, Answer::Return(Value::Long(-0x7FFF_FFFE_0000_0002))),
            (105, Answer::Return(Value::Double(0x8000_0001_FFFF_FFFE))),
            (106, Answer::Return(Value::Void)),
            (110, Answer::Throw),
        ];
        for (number, expected) in table {
            assert_eq!(answer(number, low, high), expected, "{number}");
        }
    }

    #[test]
    fn each_number_of_a_run_is_its_end() {
        assert_eq!(end(120, 0, 0), End::Stopped);
        assert_eq!(end(104, 1, 2), End::Return(Value::Long(0x2_0000_0001)));
        assert_eq!(end(110, 0, 0), End::Throw);
        assert_eq!(end(7, 0, 0), End::Refused(Refusal::new(7).unwrap()));
    }

    #[test]
    fn numbers_without_a_meaning_are_not_guessed() {
        for number in [100, 107, 109, 111, 120, 121, u32::MAX] {
            assert!(
                std::panic::catch_unwind(|| answer(number, 0, 0)).is_err(),
                "{number}"
            );
        }
        assert!(std::panic::catch_unwind(|| end(0, 0, 0)).is_err());
    }

    #[test]
    fn values_are_shown_by_bits_and_number() {
        let table = [
            (Value::Int(-1), "int FFFFFFFF (-1)"),
            (Value::Float(0x3F80_0000), "float 3F800000 (1.0)"),
            (Value::Float(0x7FC0_0000), "float 7FC00000 (NaN)"),
            (Value::Reference(0), "reference 00000000 (null)"),
            (Value::Reference(5), "reference 00000005"),
            (Value::Long(-2), "long FFFFFFFFFFFFFFFE (-2)"),
            (
                Value::Double(0x8000_0000_0000_0000),
                "double 8000000000000000 (-0.0)",
            ),
            (Value::Void, "void"),
        ];
        for (value, expected) in table {
            assert_eq!(value.to_string(), expected);
        }
        assert_eq!(Value::Float(0x3F00_0000).as_f64(), Some(0.5));
        assert_eq!(Value::Double(0x3FD0_0000_0000_0000).as_f64(), Some(0.25));
        assert_eq!(Value::Int(1).as_f64(), None);
    }
}
