//! The constant pool of a class file (JVMS 4.4).

use super::reader::Reader;

/// A constant, as far as methods of a sheet need it.
#[derive(Clone, Copy, Debug, PartialEq, Eq)]
pub enum Constant<'a> {
    /// A text, in modified UTF-8.
    Utf8(&'a [u8]),
    /// An int.
    Integer(u32),
    /// The bits of a float.
    Float(u32),
    /// A long.
    Long(u64),
    /// The bits of a double.
    Double(u64),
    /// A class, with the index of its name.
    Class(u16),
    /// Any other, by its tag.
    Other(u8),
}

impl Constant<'_> {
    /// What JVMS calls a constant of this kind.
    #[must_use]
    pub fn kind(&self) -> &'static str {
        match self {
            Constant::Utf8(_) => "Utf8",
            Constant::Integer(_) => "Integer",
            Constant::Float(_) => "Float",
            Constant::Long(_) => "Long",
            Constant::Double(_) => "Double",
            Constant::Class(_) => "Class",
            Constant::Other(tag) => other(*tag).map_or("unknown constant", |(name, _)| name),
        }
    }
}

/// The name of another tag, and the length of what follows it.
fn other(tag: u8) -> Option<(&'static str, usize)> {
    Some(match tag {
        8 => ("String", 2),
        9 => ("Fieldref", 4),
        10 => ("Methodref", 4),
        11 => ("InterfaceMethodref", 4),
        12 => ("NameAndType", 4),
        15 => ("MethodHandle", 3),
        16 => ("MethodType", 2),
        17 => ("Dynamic", 4),
        18 => ("InvokeDynamic", 4),
        19 => ("Module", 2),
        20 => ("Package", 2),
        _ => return None,
    })
}

/// The constants of a class by their indices.
#[derive(Clone, Debug, PartialEq, Eq)]
pub struct Pool<'a> {
    /// None at index 0, and at the second index of a long or a double.
    constants: Vec<Option<Constant<'a>>>,
}

impl<'a> Pool<'a> {
    pub(super) fn read(reader: &mut Reader<'a>) -> Result<Pool<'a>, String> {
        let count = usize::from(reader.u16()?);
        let mut constants = vec![None];
        while constants.len() < count {
            let constant = constant(reader, constants.len())?;
            constants.push(Some(constant));
            if matches!(constant, Constant::Long(_) | Constant::Double(_)) {
                if constants.len() == count {
                    return Err(damaged(count - 1, "has no second index"));
                }
                constants.push(None);
            }
        }
        Ok(Pool { constants })
    }

    /// The constant at an index, where there is one.
    #[must_use]
    pub fn get(&self, index: u16) -> Option<Constant<'a>> {
        self.constants.get(usize::from(index)).copied().flatten()
    }

    /// The text at an index, in modified UTF-8.
    ///
    /// # Errors
    ///
    /// Where there is none.
    pub fn utf8(&self, index: u16) -> Result<&'a [u8], String> {
        match self.get(index) {
            Some(Constant::Utf8(bytes)) => Ok(bytes),
            _ => Err(damaged(index.into(), "is no text, and should be one")),
        }
    }

    /// The name of the class at an index, in modified UTF-8 and as the class file has it:
    /// `java/lang/Object`.
    ///
    /// # Errors
    ///
    /// Where there is none.
    pub fn class_name(&self, index: u16) -> Result<&'a [u8], String> {
        match self.get(index) {
            Some(Constant::Class(name)) => self.utf8(name),
            _ => Err(damaged(index.into(), "is no class, and should be one")),
        }
    }
}

fn constant<'a>(reader: &mut Reader<'a>, index: usize) -> Result<Constant<'a>, String> {
    let tag = reader.u8()?;
    Ok(match tag {
        1 => {
            let length = reader.u16()?;
            Constant::Utf8(reader.bytes(length.into())?)
        }
        3 => Constant::Integer(reader.u32()?),
        4 => Constant::Float(reader.u32()?),
        5 => Constant::Long(reader.u64()?),
        6 => Constant::Double(reader.u64()?),
        7 => Constant::Class(reader.u16()?),
        _ => {
            let unknown = || damaged(index, &format!("has the unknown tag {tag}"));
            let (_, length) = other(tag).ok_or_else(unknown)?;
            reader.bytes(length)?;
            Constant::Other(tag)
        }
    })
}

fn damaged(index: usize, what: &str) -> String {
    format!("the class file is damaged: constant {index} {what}")
}
