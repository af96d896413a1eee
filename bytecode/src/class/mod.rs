//! A class file (JVMS 4), read as far as a static method of it can become a sheet: the constant
//! pool, the methods and their code. Any bytes are met by an answer, a class or a sentence.
//!
//! - [`read`] gives the class.
//! - [`choose`] finds the method that a user names, [`static_methods`] names all that there are.
//! - [`sheet`] gives the sheet of it, with arguments.

mod choice;
mod method;
mod others;
mod pool;
mod reader;
mod sheet;
mod text;
mod usage;

#[cfg(test)]
mod example;

pub use choice::{choose, listed, static_methods};
pub use method::{Code, Method};
pub use pool::{Constant, Pool};
pub use sheet::sheet;

use reader::Reader;

/// The first four bytes of a class file.
const MAGIC: u32 = 0xCAFE_BABE;

/// A class.
#[derive(Clone, Debug, PartialEq, Eq)]
pub struct Class<'a> {
    /// Its name as Java writes it: `java.lang.Object`.
    pub name: String,
    /// Its constants.
    pub pool: Pool<'a>,
    /// Its methods.
    pub methods: Vec<Method<'a>>,
}

/// Reads a class file.
///
/// # Errors
///
/// A sentence, where the bytes are no whole class file.
pub fn read(bytes: &[u8]) -> Result<Class<'_>, String> {
    let mut reader = Reader::new(bytes);
    if reader.u32()? != MAGIC {
        return Err("this is no class file".to_string());
    }
    // The version: the instructions of a sheet are the same in all of them.
    reader.u32()?;
    let pool = Pool::read(&mut reader)?;
    // The access flags of the class.
    reader.u16()?;
    let name = text::decode(pool.class_name(reader.u16()?)?).replace('/', ".");
    // The class above it.
    reader.u16()?;
    for _ in 0..reader.u16()? {
        reader.u16()?;
    }
    skip_fields(&mut reader)?;
    let methods = method::methods(&mut reader, &pool)?;
    method::skip_attributes(&mut reader)?;
    if !reader.is_empty() {
        let end = reader.at();
        return Err(format!(
            "the class file is damaged: it goes on after its end at byte {end}"
        ));
    }
    Ok(Class {
        name,
        pool,
        methods,
    })
}

/// Passes over the fields: a method of a sheet has no use of them.
fn skip_fields(reader: &mut Reader) -> Result<(), String> {
    for _ in 0..reader.u16()? {
        // Flags, name and descriptor.
        reader.bytes(6)?;
        method::skip_attributes(reader)?;
    }
    Ok(())
}

#[cfg(test)]
mod tests;
