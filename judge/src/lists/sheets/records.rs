//! Sheets as text: records between semicolons.
//!
//! ```text
//! LM DS CD KI EX AR       good records: limits 2 3; descriptor (II)I; code 06 AC; int 1; handler 0 2 1 0; arguments 5 6
//! printed, rich, typed,
//! handled                 whole sheets
//! limits A B              max_stack and max_locals
//! descriptor TEXT         in ASCII, without a semicolon
//! code BYTES
//! int I [DIGITS]          a constant at an index; so are float, long, double and class, each with a value of its own unless said otherwise
//! entry I TAG DIGITS      a constant of any tag
//! handler A B C D         start, end, handler and catch type
//! arguments WORDS
//! record MARK BYTES       any record
//! empty MARK N            a record of so many zeros
//! cut MARK N LENGTH       the same, with another length written
//! zeros N, bytes BYTES    no record
//! ```
//!
//! Bytes and values are hexadecimal, other numbers are decimal.

use crate::lists::text::number;
use bytecode::records::{arguments, constant, descriptor, handler, record, sizes};
use bytecode::values::{bytes, Kind};

/// The sheet of docs/RULES.md.
pub const PRINTED: &str = "limits 2 0; code 06 07 60 AC; arguments";
/// A sheet with constants of every kind.
pub const RICH: &str = "limits 3 4; code 06 07 60 12 01 60 AC; int 1; float 2 FFA12345; long 3; double 5 7FF0000000000001; \
                        int 9 FFFFFFFE; arguments 5 4294967295 2147483648";

/// A sheet with the descriptor `(IJ)[La/b;`.
pub const TYPED: &str = "limits 3 4; record DS 28 49 4A 29 5B 4C 61 2F 62 3B; code 06 07 60 12 01 60 AC; int 1; arguments 5 6 7";

/// A sheet with classes and handlers.
pub const HANDLED: &str = "limits 2 0; code 08 03 6C AC AC; class 1; class 2 00000000; handler 0 3 4 2; handler 2 5 3 0; arguments";

/// The sheets that good records begin: nothing, `LM`, and so on.
pub const BEGINNINGS: [(&str, &str); 10] = [
    ("first", ""),
    ("after_lm", "LM"),
    ("after_ds", "LM; DS"),
    ("after_cd", "LM; CD"),
    ("after_ds_cd", "LM; DS; CD"),
    ("after_ki", "LM; CD; KI"),
    ("after_two_ki", "LM; CD; KI; long 2"),
    ("after_ex", "LM; CD; KI; EX"),
    ("after_ar", "LM; CD; KI; AR"),
    ("after_cd_ar", "LM; CD; AR"),
];

/// The bytes of records.
pub fn sheet(text: &str) -> Result<Vec<u8>, String> {
    let records = text
        .split(';')
        .map(|one| one.split_whitespace().collect::<Vec<_>>());
    let records = records.filter(|words| !words.is_empty());
    Ok(records
        .map(|words| one(&words))
        .collect::<Result<Vec<_>, _>>()?
        .concat())
}

fn one(words: &[&str]) -> Result<Vec<u8>, String> {
    Ok(match words {
        ["LM"] => sizes(2, 3),
        ["DS"] => descriptor(b"(II)I"),
        ["CD"] => record(b"CD", &[0x06, 0xAC]),
        ["KI"] => one(&["int", "1"])?,
        ["EX"] => handler([0, 2, 1, 0]),
        ["AR"] => arguments(&[5, 6]),
        ["printed"] => sheet(PRINTED)?,
        ["rich"] => sheet(RICH)?,
        ["typed"] => sheet(TYPED)?,
        ["handled"] => sheet(HANDLED)?,
        ["limits", max_stack, max_locals] => sizes(number(max_stack)?, number(max_locals)?),
        ["descriptor", text] => descriptor(text.as_bytes()),
        ["code", digits @ ..] => record(b"CD", &bytes(&digits.concat())?),
        ["entry", index, tag, digits] => constant(number(index)?, number(tag)?, &bytes(digits)?),
        ["handler", fields @ ..] => {
            let fields = fields.iter().map(|field| number(field));
            let fields = fields.collect::<Result<Vec<u16>, _>>()?;
            handler(fields.try_into().map_err(|_| "a handler has four fields")?)
        }
        ["arguments", words @ ..] => {
            let words = words.iter().map(|word| number(word));
            arguments(&words.collect::<Result<Vec<u32>, _>>()?)
        }
        ["record", mark, digits @ ..] => record(&mark_of(mark)?, &bytes(&digits.concat())?),
        ["empty", mark, many] => record(&mark_of(mark)?, &vec![0; number(many)?]),
        ["cut", mark, many, length] => {
            let length = number::<u16>(length)?.to_be_bytes();
            [&mark_of(mark)?[..], &length, &vec![0; number(many)?]].concat()
        }
        ["zeros", many] => vec![0; number(many)?],
        ["bytes", digits @ ..] => bytes(&digits.concat())?,
        [kind, index] => constant_at(kind, index, value_of(kind))?,
        [kind, index, digits] => constant_at(kind, index, digits)?,
        _ => return Err(format!("{} is no record", words.join(" "))),
    })
}

fn mark_of(mark: &str) -> Result<[u8; 2], String> {
    mark.as_bytes()
        .try_into()
        .map_err(|_| format!("{mark} is no mark"))
}

/// The value of a constant of which none is said.
fn value_of(kind: &str) -> &'static str {
    match kind {
        "int" => "0000002A",
        "float" => "40490FDB",
        "long" => "0123456789ABCDEF",
        "class" => "00000001",
        _ => "400921FB54442D18",
    }
}

fn constant_at(kind: &str, index: &str, digits: &str) -> Result<Vec<u8>, String> {
    let tag = match (kind, Kind::of_name(kind)) {
        ("class", _) => 7,
        (_, Some(kind)) => kind.tag(),
        _ => return Err(format!("{kind} is no record")),
    };
    Ok(constant(number(index)?, tag, &bytes(digits)?))
}
