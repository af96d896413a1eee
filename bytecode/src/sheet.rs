//! A sheet that is read: what its records say (docs/RULES.md, 'The sheet').
//!
//! Reading asks for records in their order and no more. What a load refuses besides, as a constant
//! below the one before it or a wrong descriptor, is read as it stands.
//!
//! ```
//! use bytecode::sheet::Sheet;
//!
//! let bytes = b"LM\x00\x04\x00\x02\x00\x00CD\x00\x04\x06\x07\x60\xACAR\x00\x00";
//! let sheet = Sheet::read(bytes).unwrap();
//! assert_eq!((sheet.max_stack, &sheet.code[..]), (2, &[0x06, 0x07, 0x60, 0xAC][..]));
//! assert_eq!(sheet.bytes(), bytes);
//! ```

use crate::reader::Reader;
use crate::records;
use crate::values::Kind;

/// What the records of a sheet say.
#[derive(Clone, Debug, Default, PartialEq, Eq)]
pub struct Sheet {
    /// How many places the operand stack has.
    pub max_stack: u16,
    /// How many locals there are.
    pub max_locals: u16,
    /// The bytes of the method descriptor, good or not, where there is one.
    pub descriptor: Option<Vec<u8>>,
    /// The code.
    pub code: Vec<u8>,
    /// The constants, in the order of their records.
    pub constants: Vec<Constant>,
    /// Start, end, handler and catch type of each entry of the exception table, in its order.
    pub handlers: Vec<[u16; 4]>,
    /// The words of the arguments.
    pub arguments: Vec<u32>,
}

/// A constant of the pool.
#[derive(Clone, Copy, Debug, PartialEq, Eq)]
pub struct Constant {
    /// Its index.
    pub index: u16,
    /// Its kind.
    pub kind: ConstantKind,
    /// Its bits, of which an int, a float and a class use the low 32.
    pub bits: u64,
}

/// The kind of a constant.
#[derive(Clone, Copy, Debug, PartialEq, Eq)]
pub enum ConstantKind {
    /// An int, a float, a long or a double.
    Value(Kind),
    /// A class.
    Class,
}

impl ConstantKind {
    /// The kind of a tag, as in JVMS 4.4.
    #[must_use]
    pub fn of_tag(tag: u8) -> Option<ConstantKind> {
        Some(ConstantKind::Value(match tag {
            3 => Kind::Int,
            4 => Kind::Float,
            5 => Kind::Long,
            6 => Kind::Double,
            7 => return Some(ConstantKind::Class),
            _ => return None,
        }))
    }

    /// The tag.
    #[must_use]
    pub fn tag(self) -> u8 {
        match self {
            ConstantKind::Value(kind) => kind.tag(),
            ConstantKind::Class => 7,
        }
    }

    /// How many words a constant of this kind has.
    #[must_use]
    pub fn size(self) -> usize {
        match self {
            ConstantKind::Value(kind) => kind.size(),
            ConstantKind::Class => 1,
        }
    }
}

/// What can be read of bytes that may be no sheet.
#[derive(Clone, Debug, PartialEq, Eq)]
pub struct Reading {
    /// What the records at their start say. What has no record is empty or 0.
    pub sheet: Sheet,
    /// How many bytes these records have.
    pub length: usize,
    /// Whether the records are a whole sheet, with nothing after it.
    pub is_whole: bool,
}

impl Sheet {
    /// The sheet of these bytes. Nothing where they are not the records of a sheet in their order,
    /// each of a length that its mark may have, and no more.
    #[must_use]
    pub fn read(bytes: &[u8]) -> Option<Sheet> {
        let reading = Sheet::read_start(bytes);
        reading.is_whole.then_some(reading.sheet)
    }

    /// The records at the start of these bytes, up to the first one that is not whole, out of its
    /// order or of another length than its mark may have.
    #[must_use]
    pub fn read_start(bytes: &[u8]) -> Reading {
        let (mut sheet, mut length, mut last) = (Sheet::default(), 0, &b""[..]);
        while let Some((mark, body)) = record(&bytes[length..]) {
            if !may_follow(last, mark) || sheet.take(mark, body).is_none() {
                break;
            }
            length += 4 + body.len();
            last = mark;
        }
        let is_whole = last == b"AR" && length == bytes.len();
        Reading {
            sheet,
            length,
            is_whole,
        }
    }

    /// Takes what a record says, where its body has a length that its mark may have.
    fn take(&mut self, mark: &[u8], body: &[u8]) -> Option<()> {
        let mut reader = Reader::new(body, 0);
        match mark {
            b"LM" => {
                let sizes = (reader.u16()?, reader.u16()?);
                (self.max_stack, self.max_locals) = (body.len() == 4).then_some(sizes)?;
            }
            b"DS" => self.descriptor = Some(body.to_vec()),
            b"CD" => self.code = body.to_vec(),
            b"KI" => self.constants.push(constant(body)?),
            b"EX" => {
                let fields = [reader.u16()?, reader.u16()?, reader.u16()?, reader.u16()?];
                self.handlers.push((body.len() == 8).then_some(fields)?);
            }
            _ => {
                let words = body.chunks(4).map(|_| reader.u32());
                self.arguments = words.collect::<Option<_>>()?;
            }
        }
        Some(())
    }

    /// The bytes of the sheet: of one that was read, those that it was read from.
    ///
    /// # Panics
    ///
    /// Where a descriptor, a code or arguments have more than 65,535 bytes, which no record has.
    #[must_use]
    pub fn bytes(&self) -> Vec<u8> {
        let constants = self.constants.iter().flat_map(|constant| {
            let bits = constant.bits.to_be_bytes();
            let value = &bits[8 - 4 * constant.kind.size()..];
            records::constant(constant.index, constant.kind.tag(), value)
        });
        let handlers = self.handlers.iter().copied().flat_map(records::handler);
        let descriptor = self.descriptor.as_deref().map(records::descriptor);
        [
            records::sizes(self.max_stack, self.max_locals),
            descriptor.unwrap_or_default(),
            records::record(b"CD", &self.code),
            constants.collect(),
            handlers.collect(),
            records::arguments(&self.arguments),
        ]
        .concat()
    }
}

/// The mark and the body of the record at the start of these bytes, where it is whole.
fn record(bytes: &[u8]) -> Option<(&[u8], &[u8])> {
    let (mark, rest) = bytes.split_at_checked(2)?;
    let (length, rest) = rest.split_first_chunk()?;
    let body = rest.get(..usize::from(u16::from_be_bytes(*length)))?;
    Some((mark, body))
}

/// Whether a record may stand after another; the first one stands after none, which is empty.
fn may_follow(last: &[u8], mark: &[u8]) -> bool {
    match mark {
        b"LM" => last.is_empty(),
        b"DS" => last == b"LM",
        b"CD" => matches!(last, b"LM" | b"DS"),
        b"KI" => matches!(last, b"CD" | b"KI"),
        b"EX" | b"AR" => matches!(last, b"CD" | b"KI" | b"EX"),
        _ => false,
    }
}

/// The constant of a body, where its tag suits its length.
fn constant(body: &[u8]) -> Option<Constant> {
    let mut reader = Reader::new(body, 0);
    let (index, tag) = (reader.u16()?, reader.u8()?);
    let kind = ConstantKind::of_tag(tag)?;
    let bits = match (kind.size(), body.len()) {
        (1, 7) => reader.u32()?.into(),
        (2, 11) => reader.u64()?,
        _ => return None,
    };
    Some(Constant { index, kind, bits })
}
