//! Bytecode as people write it and read it: no step depends on anything here, and nothing here is
//! linked with the exported library. The host shows instructions with it and assembles methods; the
//! judge has its samples in this syntax.
//!
//! - [`instructions`]: the 164 instructions of the core, with their names, operands and lengths.
//! - [`decoded`]: the instructions of a code, one after the other.
//! - [`mnemonics`]: an instruction of a code as text.
//! - [`assembler`]: the code of a listing.
//! - [`records`]: the records of a sheet.
//! - [`sheet`]: what the records of a sheet say.
//! - [`listing`]: a sheet as text, to read, and as a source.
//! - [`decimals`]: floats and doubles as Java writes them.
//! - [`class`]: a class file, and the sheet of a static method in it.
//! - [`descriptor`]: a method descriptor as types.
//! - [`literals`]: Java's literals as words.
//! - [`source`]: the sheet of a method that is written as text.
//! - [`error`]: what is wrong in a source or a listing, and in which line.
//! - [`suggestion`]: names that are close to a wrong one.
//! - [`values`]: values as they are written, and their words.

#![forbid(unsafe_code)]

pub mod assembler;
pub mod class;
pub mod decimals;
pub mod decoded;
pub mod descriptor;
pub mod error;
pub mod instructions;
pub mod listing;
pub mod literals;
pub mod mnemonics;
mod reader;
pub mod records;
pub mod sheet;
pub mod source;
pub mod suggestion;
pub mod values;
