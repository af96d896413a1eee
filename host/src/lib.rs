//! Safe Rust types over the exported workbook library: a stepper for Java bytecode that goes
//! forward and back.
//!
//! - [`load`], [`step`], [`forward`], [`back`], [`run`] and [`presses`] are the library's functions
//!   on lent slices.
//! - [`Walk`] owns the memory that they need.
//! - [`kinds`] tells what the words of a frame are by the instructions executed, and [`shown`] gives
//!   the values; both are for showing only.
//! - [`mnemonics`] shows instructions by name, [`assembler`] and [`source`] make code and sheets of
//!   them.
//!
//! No function here has a precondition. A state of one sheet with the memory of another, slices of
//! any length and words of any value are met by an answer: a refusal or a step, never undefined
//! behaviour. Only where the linked archive is of another version than [`VERSION`], or gives a
//! number that its description does not have, a call panics and says so.
//!
//! What comes back may get further cases and fields (`#[non_exhaustive]`); what is lent is listed in
//! full, so that the compiler shows where something new has to be lent.
//!
//! ```
//! use workbook_host::{Answer, Value, Walk};
//!
//! // A method that adds 3 and 4.
//! let sheet = b"LM\x00\x04\x00\x02\x00\x00CD\x00\x04\x06\x07\x60\xACAR\x00\x00";
//! let mut walk = Walk::open(sheet.to_vec())?;
//! assert_eq!(walk.next_instruction(), "iconst_3");
//! for _ in 0..3 {
//!     assert_eq!(walk.forward(), Answer::Granted);
//! }
//! assert_eq!(walk.stack(), [7]);
//! assert_eq!(walk.forward(), Answer::Return(Value::Int(7)));
//! assert_eq!(walk.back(), Answer::Granted);
//! assert_eq!(walk.stack(), [3, 4]);
//! # Ok::<(), workbook_host::Refusal>(())
//! ```

#![deny(unsafe_code)]

mod answers;
mod calls;
pub mod kinds;
mod refusal;
mod return_type;
mod room;
pub mod shown;
mod version;
mod walk;

/// The exported functions over slices of any lengths. Public for the tests of the boundary, which
/// pass wrong lengths on purpose; programs use the typed functions.
#[doc(hidden)]
#[allow(unsafe_code)]
pub mod ffi;

pub use bytecode::{assembler, decimals, decoded, error, instructions, listing, mnemonics};
pub use bytecode::{records, sheet, source, suggestion, values};

pub use answers::{Answer, End, Ran, Value};
pub use calls::{back, forward, load, presses, run, step};
pub use calls::{Loaded, Parts, Press, State, LOG_WORDS};
pub use refusal::Refusal;
pub use return_type::ReturnType;
pub use version::VERSION;
pub use walk::{Reached, Walk};
