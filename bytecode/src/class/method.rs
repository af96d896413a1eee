//! The methods of a class file and their code (JVMS 4.6, 4.7.3).

use super::pool::Pool;
use super::reader::Reader;
use super::text;

/// The most bytes that a code has (JVMS 4.7.3).
const MOST_CODE: u32 = 65_535;

/// A method.
#[derive(Clone, Debug, PartialEq, Eq)]
pub struct Method<'a> {
    /// Its name, in modified UTF-8.
    pub name: &'a [u8],
    /// Its descriptor, in modified UTF-8.
    pub descriptor: &'a [u8],
    /// Its access flags (JVMS, table 4.6-A).
    pub flags: u16,
    /// Its code. An abstract method and a native one have none.
    pub code: Option<Code<'a>>,
}

impl Method<'_> {
    /// Its name as text.
    #[must_use]
    pub fn name_text(&self) -> String {
        text::decode(self.name)
    }

    /// Its descriptor as text.
    #[must_use]
    pub fn descriptor_text(&self) -> String {
        text::decode(self.descriptor)
    }

    /// Its name and its descriptor.
    #[must_use]
    pub fn signature(&self) -> String {
        self.name_text() + &self.descriptor_text()
    }

    /// Whether it is static (ACC_STATIC).
    #[must_use]
    pub fn is_static(&self) -> bool {
        self.flags & 0x0008 != 0
    }

    /// Whether it is native (ACC_NATIVE).
    #[must_use]
    pub fn is_native(&self) -> bool {
        self.flags & 0x0100 != 0
    }
}

/// The code of a method.
#[derive(Clone, Debug, PartialEq, Eq)]
pub struct Code<'a> {
    /// The most places of the operand stack.
    pub max_stack: u16,
    /// How many locals there are.
    pub max_locals: u16,
    /// The instructions, at most 65,535 bytes.
    pub code: &'a [u8],
    /// The exception table in its order: start, end, handler and catch type of each entry.
    pub handlers: Vec<[u16; 4]>,
}

/// The methods, in the order of the file.
pub(super) fn methods<'a>(
    reader: &mut Reader<'a>,
    pool: &Pool<'a>,
) -> Result<Vec<Method<'a>>, String> {
    let count = reader.u16()?;
    (0..count).map(|_| method(reader, pool)).collect()
}

fn method<'a>(reader: &mut Reader<'a>, pool: &Pool<'a>) -> Result<Method<'a>, String> {
    let flags = reader.u16()?;
    let name = pool.utf8(reader.u16()?)?;
    let descriptor = pool.utf8(reader.u16()?)?;
    let mut code = None;
    for _ in 0..reader.u16()? {
        let attribute = pool.utf8(reader.u16()?)?;
        let mut body = attribute_body(reader)?;
        if attribute == b"Code" {
            if code.is_some() {
                return Err(damaged(name, "has two codes"));
            }
            code = Some(code_of(&mut body, name)?);
        }
    }
    Ok(Method {
        name,
        descriptor,
        flags,
        code,
    })
}

fn code_of<'a>(reader: &mut Reader<'a>, name: &[u8]) -> Result<Code<'a>, String> {
    let (max_stack, max_locals) = (reader.u16()?, reader.u16()?);
    let length = reader.u32()?;
    if length > MOST_CODE {
        return Err(damaged(name, "has more than 65,535 bytes of code"));
    }
    let code = reader.bytes(length as usize)?;
    let mut handlers = vec![];
    for _ in 0..reader.u16()? {
        handlers.push([reader.u16()?, reader.u16()?, reader.u16()?, reader.u16()?]);
    }
    skip_attributes(reader)?;
    if !reader.is_empty() {
        return Err(damaged(name, "has a code attribute of another length"));
    }
    Ok(Code {
        max_stack,
        max_locals,
        code,
        handlers,
    })
}

/// Passes over attributes that say nothing about a step.
pub(super) fn skip_attributes(reader: &mut Reader) -> Result<(), String> {
    for _ in 0..reader.u16()? {
        reader.u16()?;
        attribute_body(reader)?;
    }
    Ok(())
}

fn attribute_body<'a>(reader: &mut Reader<'a>) -> Result<Reader<'a>, String> {
    let length = reader.u32()?;
    // Where an index has 16 bits, no file has so many bytes.
    reader.part(usize::try_from(length).unwrap_or(usize::MAX))
}

fn damaged(name: &[u8], what: &str) -> String {
    let name = text::decode(name);
    format!("the class file is damaged: method {name} {what}")
}
