//! A sheet as text: the listing, as `javap` prints one, and the source that gives the sheet again.
//!
//! ```
//! use bytecode::listing::{listing, source};
//! use bytecode::sheet::Sheet;
//!
//! let bytes = b"LM\x00\x04\x00\x01\x00\x01CD\x00\x03\x10\x07\xACAR\x00\x00";
//! let sheet = Sheet::read(bytes).unwrap();
//! let text = "     0: bipush        7\n     2: ireturn\nmax_stack 1, max_locals 1\n";
//! assert_eq!(listing(&sheet), text);
//! assert_eq!(bytecode::source::sheet(&source(&sheet)).as_deref(), Ok(&bytes[..]));
//! ```

mod arguments;
mod instructions;
mod loads;
mod source;
mod value;

pub use source::{source, source_of_bytes};
pub use value::shown;

use crate::sheet::{Constant, ConstantKind, Sheet};
use crate::values::Kind;
use std::fmt::Write;

/// How many bytes are shown of what is no record or no instruction.
const SHOWN_BYTES: usize = 16;

/// The listing of a sheet: its instructions, one a line, each with its offset; then the sizes, the
/// descriptor, the constants, the exception table and the arguments.
#[must_use]
pub fn listing(sheet: &Sheet) -> String {
    let mut text = instructions::lines(sheet);
    let sizes = (sheet.max_stack, sheet.max_locals);
    text += &format!("max_stack {}, max_locals {}\n", sizes.0, sizes.1);
    if let Some(descriptor) = &sheet.descriptor {
        text += &format!("descriptor {}\n", characters(descriptor));
    }
    text += &section("constants:", sheet.constants.iter().map(constant));
    text += &exception_table(sheet);
    text + &section("arguments:", arguments::shown(sheet).into_iter())
}

/// The listing of bytes that may be no sheet: of the records at their start, and then what is wrong.
#[must_use]
pub fn listing_of_bytes(bytes: &[u8]) -> String {
    let reading = Sheet::read_start(bytes);
    let (rest, from) = (&bytes[reading.length..], reading.length);
    let mut text = match from {
        0 => String::new(),
        _ => listing(&reading.sheet),
    };
    if !rest.is_empty() {
        text += &format!("no record from byte {from} on: {}\n", first_bytes(rest));
    } else if !reading.is_whole {
        text += "no AR record at the end\n";
    }
    text
}

/// Lines under a heading, where there are any.
fn section(heading: &str, lines: impl Iterator<Item = String>) -> String {
    let lines: String = lines.map(|line| format!("  {line}\n")).collect();
    match &lines[..] {
        "" => lines,
        _ => format!("{heading}\n{lines}"),
    }
}

fn constant(constant: &Constant) -> String {
    format!("#{} {}", constant.index, constant_value(constant))
}

/// The kind and the value of a constant.
fn constant_value(constant: &Constant) -> String {
    match constant.kind {
        ConstantKind::Value(kind) => format!("{} {}", kind_name(kind), shown(kind, constant.bits)),
        ConstantKind::Class => match constant.bits {
            0 => "class that an ArithmeticException cannot be assigned to".to_string(),
            1 => "class that an ArithmeticException can be assigned to".to_string(),
            bits => format!("class whose word is {bits}, and has to be 0 or 1"),
        },
    }
}

fn kind_name(kind: Kind) -> &'static str {
    match kind {
        Kind::Int => "int",
        Kind::Float => "float",
        Kind::Long => "long",
        Kind::Double => "double",
    }
}

fn exception_table(sheet: &Sheet) -> String {
    let lines = sheet.handlers.iter().map(|[start, end, at, catch_type]| {
        let catch_type = match catch_type {
            0 => "any".to_string(),
            index => format!("#{index}"),
        };
        format!("{start:>6} {end:>6} {at:>6}  {catch_type}")
    });
    let heading = "exception table:\n    from     to target  type";
    section(heading, lines)
}

/// Text of a file as characters that do nothing to a terminal.
fn characters(bytes: &[u8]) -> String {
    match std::str::from_utf8(bytes) {
        Ok(text) => text.escape_debug().to_string(),
        Err(_) => bytes.escape_ascii().to_string(),
    }
}

/// The first of these bytes in hexadecimal.
fn first_bytes(bytes: &[u8]) -> String {
    let mut text = hexadecimal(&bytes[..bytes.len().min(SHOWN_BYTES)]);
    if bytes.len() > SHOWN_BYTES {
        let _ = write!(text, " ... ({} bytes)", bytes.len());
    }
    text
}

/// Bytes in hexadecimal, with a space between two.
fn hexadecimal(bytes: &[u8]) -> String {
    let digits: Vec<String> = bytes.iter().map(|byte| format!("{byte:02X}")).collect();
    digits.join(" ")
}
