//! The numbered refusals, each with a name and a sentence for a learner.

use std::error::Error;
use std::fmt;

/// A refusal: the number, from 1 to 99, of the question that a method or a file fails
/// (docs/RULES.md, 'Questions and refusals'). Each number that the library gives has a name here.
///
/// ```
/// use workbook_host::{Refusal, Walk};
///
/// let refusal = Walk::open(b"LM\x00\x04\x00\x02".to_vec()).unwrap_err();
/// assert_eq!(refusal, Refusal::SHEET_CUT);
/// assert_eq!(refusal.number(), 21);
/// assert_eq!(refusal.to_string(), "21: The file ends in the middle of a record.");
/// ```
#[derive(Clone, Copy, Debug, PartialEq, Eq, PartialOrd, Ord, Hash)]
pub struct Refusal(u8);

impl Refusal {
    /// The refusal with this number, where there is one: from 1 to 99.
    #[must_use]
    pub const fn new(number: u32) -> Option<Refusal> {
        match number {
            1..=99 => Some(Refusal(number as u8)),
            _ => None,
        }
    }

    /// The number.
    #[must_use]
    pub const fn number(self) -> u32 {
        self.0 as u32
    }
}

/// A constant for each refusal, and what is wrong with the method or the file, in one sentence.
macro_rules! refusals {
    ($($name:ident = $number:literal: $sentence:literal;)*) => {
        /// The refusals that the library gives.
        impl Refusal {
            $(#[doc = $sentence] pub const $name: Refusal = Refusal($number);)*

            /// All of them, by number.
            pub const ALL: &'static [Refusal] = &[$(Refusal::$name),*];

            #[cfg(test)]
            const NAMES: &'static [&'static str] = &[$(stringify!($name)),*];

            /// What is wrong with the method or the file, in one sentence.
            #[must_use]
            pub const fn sentence(self) -> &'static str {
                match self.0 {
                    $($number => $sentence,)*
                    _ => "This program does not know what this number stands for.",
                }
            }
        }
    };
}

// A step, a press or a run; then a sheet; then what came with the return type, one of each; then
// what came with exception tables.
refusals! {
    LENT = 1: "The memory has too few slots for the method's locals and operand stack, \
               or its two parts for constants are not equally long or too long.";
    PC = 2: "The offset is outside of the code, or the code is empty or above 65,535 bytes.";
    DEPTH = 3: "The operand stack holds more than max_stack allows.";
    OPCODE = 4: "The byte here is not one of the 164 instructions, \
                 or WIDE stands before one that it cannot widen.";
    OPERANDS = 5: "The code ends in the middle of the instruction.";
    SWITCH = 6: "The switch has a lowest index above its highest, a negative number of pairs, \
                 or keys that do not rise.";
    POP = 7: "The instruction takes more from the operand stack than is on it.";
    PUSH = 8: "The instruction puts more on the operand stack than max_stack allows.";
    LOCAL = 9: "The instruction uses a local that is not below max_locals; \
                a long or a double uses two locals.";
    CONSTANT = 10: "There is no constant of the kind that the instruction takes at its index.";
    NEXT_PC = 11: "The instruction leads to an offset outside of the code.";
    LOG_FULL = 12: "The log is full, so the step could not be taken back later.";
    START = 13: "The walk is at its start, so there is no step to take back.";
    ENTRY = 14: "The log has no entry from which the last step can be taken back.";

    SHEET_CUT = 21: "The file ends in the middle of a record.";
    SHEET_MARK = 22: "The file has a record whose mark is none of LM, DS, CD, KI, EX and AR.";
    SHEET_ORDER = 23: "The file's records are not LM, at most one DS, CD, any number of KI, \
                       any number of EX and AR, in this order, or one is missing.";
    SHEET_LENGTH = 24: "The file has a record of a wrong length: LM has 4 bytes, CD at least 1, \
                        KI 7 or 11, AR a multiple of 4.";
    SHEET_CONSTANT = 25: "The file has a constant whose tag does not suit its length, \
                          or whose index is 0, not above all indices before it, \
                          or too high for a long or a double, \
                          or a class whose word is neither 0 nor 1.";
    SHEET_MEMORY = 26: "The lent memory is too small for the method in the file, \
                        or its two parts for constants are not equally long or too long.";
    SHEET_ARGUMENTS = 27: "The file has more argument words than max_locals.";

    SHEET_DESCRIPTOR = 31: "The file's descriptor is not parameter types in parentheses \
                            and then a return type, as (IJ)B is, \
                            or there are more or fewer argument words than it takes, \
                            two for a long or a double.";
    RETURN_TYPE = 32: "The return instruction is of another kind than the method's return type: \
                       IRETURN is for boolean, byte, char, short and int, LRETURN for long, \
                       FRETURN for float, DRETURN for double, ARETURN for a reference, \
                       RETURN for void.";

    SHEET_HANDLER = 33: "The file has an EX record whose length is not 8, \
                         whose start is not below its end, \
                         whose start or handler is outside of the code, \
                         whose end is above the code's length, \
                         or whose catch type is neither 0 nor the index of a class.";
}

impl fmt::Display for Refusal {
    fn fmt(&self, f: &mut fmt::Formatter<'_>) -> fmt::Result {
        write!(f, "{}: {}", self.number(), self.sentence())
    }
}

impl Error for Refusal {}

#[cfg(test)]
mod tests {
    use super::*;
    use std::collections::HashSet;

    fn refusal(number: u32) -> Refusal {
        Refusal::new(number).unwrap()
    }

    /// The numbers that the library gives.
    fn known() -> impl Iterator<Item = u32> {
        (1..=14).chain(21..=27).chain(31..=33)
    }

    #[test]
    fn each_refusal_has_a_name() {
        let named = Refusal::ALL.iter().map(|refusal| refusal.number());
        assert!(named.eq(known()));
    }

    #[test]
    fn the_names_are_those_of_the_header() {
        let header = include_str!("../../include/workbook.h");
        let of_a_press = header.matches(" WORKBOOK_REFUSED_").count();
        let of_a_sheet = header.matches(" WORKBOOK_SHEET_").count();
        assert_eq!(of_a_press + of_a_sheet, Refusal::ALL.len());
        for (name, refusal) in Refusal::NAMES.iter().zip(Refusal::ALL) {
            let group = if name.starts_with("SHEET_") {
                ""
            } else {
                "REFUSED_"
            };
            let line = format!(" WORKBOOK_{group}{name} = {},", refusal.number());
            assert!(header.contains(&line), "{line}");
        }
    }

    #[test]
    fn each_refusal_has_its_own_sentence() {
        let unknown = refusal(99).sentence();
        let sentences: HashSet<_> = known().map(|number| refusal(number).sentence()).collect();
        assert_eq!(sentences.len(), 24);
        assert!(!sentences.contains(unknown));
        for number in (1..=99).filter(|number| !known().any(|other| other == *number)) {
            assert_eq!(refusal(number).sentence(), unknown, "{number}");
        }
    }

    #[test]
    fn a_sentence_is_one_line_and_one_sentence() {
        for number in 1..=99 {
            let sentence = refusal(number).sentence();
            assert!(sentence.ends_with('.'), "{sentence}");
            assert_eq!(sentence.matches(". ").count(), 0, "{sentence}");
            assert!(
                !sentence.contains("  ") && !sentence.contains('\n'),
                "{sentence}"
            );
        }
    }

    #[test]
    fn a_sentence_stands_with_its_number() {
        // A word for each number that only this refusal's sentence needs.
        let table = [
            (1, "slots"),
            (2, "offset is outside"),
            (3, "holds more"),
            (4, "WIDE"),
            (5, "middle of the instruction"),
            (6, "switch"),
            (7, "takes more"),
            (8, "puts more"),
            (9, "local"),
            (10, "constant of the kind"),
            (11, "leads to"),
            (12, "log is full"),
            (13, "start"),
            (14, "no entry"),
            (21, "middle of a record"),
            (22, "mark"),
            (23, "order"),
            (24, "length"),
            (25, "tag"),
            (26, "lent memory"),
            (27, "than max_locals"),
            (31, "parentheses"),
            (32, "IRETURN"),
            (33, "catch type"),
        ];
        assert!(table.iter().map(|row| row.0).eq(known()));
        for (number, word) in table {
            assert!(refusal(number).sentence().contains(word), "{number}");
        }
    }

    #[test]
    fn numbers_are_1_to_99() {
        assert_eq!(Refusal::new(0), None);
        assert_eq!(Refusal::new(100), None);
        assert_eq!(Refusal::new(257), None);
        assert_eq!(Refusal::new(u32::MAX), None);
        for number in 1..=99 {
            assert_eq!(refusal(number).number(), number);
        }
        let shown = "7: The instruction takes more from the operand stack than is on it.";
        assert_eq!(refusal(7).to_string(), shown);
    }
}
