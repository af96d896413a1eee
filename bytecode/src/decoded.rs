//! The instructions of a code, one after the other, with their operands; and the bytes between that
//! are none.
//!
//! This is for display and for sources: no step depends on it. It begins at offset 0 and goes from
//! the end of one instruction to the next, as a listing does. A jump of the code may lead elsewhere.

use crate::instructions::{of_opcode, widened, Instruction, Operands};
use crate::reader::Reader;

/// A part of a code: an instruction, or bytes that are no whole one.
#[derive(Clone, Debug, PartialEq, Eq)]
pub struct Piece {
    /// The offset of its first byte.
    pub at: usize,
    /// How many bytes it has.
    pub length: usize,
    /// The instruction, where the bytes are one.
    pub instruction: Option<Decoded>,
}

/// An instruction with its operands.
#[derive(Clone, Debug, PartialEq, Eq)]
pub struct Decoded {
    /// The instruction of the opcode.
    pub entry: Instruction,
    /// The instruction that `wide` widens.
    pub widened: Option<Instruction>,
    /// The operands.
    pub fields: Fields,
}

/// The operands of an instruction. Targets are offsets in the code, which may have none such.
#[derive(Clone, Debug, PartialEq, Eq)]
pub enum Fields {
    /// Numbers, as many as there are.
    Numbers(Vec<i32>),
    /// The target of a branch.
    Branch(i64),
    /// A table of targets, one for each index from the lowest on.
    Table {
        /// The lowest index.
        low: i32,
        /// The targets.
        targets: Vec<i64>,
        /// The target of every other index.
        default: i64,
    },
    /// Keys with their targets.
    Pairs {
        /// The keys, each with its target.
        pairs: Vec<(i32, i64)>,
        /// The target of every other key.
        default: i64,
    },
}

impl Fields {
    /// All targets, those of a switch in their order and its default last.
    #[must_use]
    pub fn targets(&self) -> Vec<i64> {
        match self {
            Fields::Numbers(_) => vec![],
            Fields::Branch(target) => vec![*target],
            Fields::Table {
                targets, default, ..
            } => targets.iter().chain([default]).copied().collect(),
            Fields::Pairs { pairs, default } => {
                let targets = pairs.iter().map(|(_, target)| target);
                targets.chain([default]).copied().collect()
            }
        }
    }
}

/// Why bytes are no whole instruction.
enum Wrong {
    /// The code ends inside of it.
    Cut,
    /// What is read of it is none.
    Read,
}

/// The parts of a code from its start to its end, without a gap.
///
/// A byte that is no opcode is a part by itself; an instruction that the end of the code cuts off is
/// one part up to that end; a switch with impossible numbers is one up to its table.
#[must_use]
pub fn pieces(code: &[u8]) -> Vec<Piece> {
    let (mut pieces, mut at) = (vec![], 0);
    while at < code.len() {
        let piece = piece(code, at);
        at += piece.length;
        pieces.push(piece);
    }
    pieces
}

fn piece(code: &[u8], at: usize) -> Piece {
    let mut reader = Reader::new(code, at);
    let (instruction, end) = match decoded(&mut reader) {
        Ok(decoded) => (Some(decoded), reader.at),
        Err(Wrong::Read) => (None, reader.at),
        Err(Wrong::Cut) => (None, code.len()),
    };
    Piece {
        at,
        length: end - at,
        instruction,
    }
}

fn decoded(reader: &mut Reader) -> Result<Decoded, Wrong> {
    let pc = reader.at as i64;
    let entry = of_opcode(reader.u8().ok_or(Wrong::Cut)?).ok_or(Wrong::Read)?;
    if entry.operands != Operands::Wide {
        let fields = fields(entry.operands, reader, pc)?;
        return Ok(Decoded {
            entry,
            widened: None,
            fields,
        });
    }
    let after = reader.at;
    let opcode = reader.u8().ok_or(Wrong::Cut)?;
    let (Some(operands), second) = (widened(opcode), of_opcode(opcode)) else {
        // What follows may be an instruction of its own.
        reader.at = after;
        return Err(Wrong::Read);
    };
    let fields = fields(operands, reader, pc)?;
    Ok(Decoded {
        entry,
        widened: second,
        fields,
    })
}

fn fields(operands: Operands, reader: &mut Reader, pc: i64) -> Result<Fields, Wrong> {
    match operands {
        Operands::TableSwitch => table_switch(reader, pc),
        Operands::LookupSwitch => lookup_switch(reader, pc),
        fixed => fixed_fields(fixed, reader, pc).ok_or(Wrong::Cut),
    }
}

/// Operands of a fixed length. Nothing where the code ends inside of them.
fn fixed_fields(operands: Operands, reader: &mut Reader, pc: i64) -> Option<Fields> {
    Some(Fields::Numbers(match operands {
        Operands::Byte => vec![reader.i8()?.into()],
        Operands::Short => vec![reader.i16()?.into()],
        Operands::Index => vec![reader.u8()?.into()],
        Operands::LongIndex => vec![reader.u16()?.into()],
        Operands::Increment => vec![reader.u8()?.into(), reader.i8()?.into()],
        Operands::LongIncrement => vec![reader.u16()?.into(), reader.i16()?.into()],
        Operands::Branch => return Some(Fields::Branch(pc + i64::from(reader.i16()?))),
        Operands::LongBranch => return Some(Fields::Branch(pc + i64::from(reader.i32()?))),
        _ => vec![],
    }))
}

fn table_switch(reader: &mut Reader, pc: i64) -> Result<Fields, Wrong> {
    reader.align();
    let mut field = || reader.i32().ok_or(Wrong::Cut);
    let (default, low, high) = (field()?, field()?, field()?);
    if low > high {
        return Err(Wrong::Read);
    }
    let length = i64::from(high) - i64::from(low) + 1;
    if !reader.has(4 * length) {
        return Err(Wrong::Cut);
    }
    let targets = (0..length).map_while(|_| Some(pc + i64::from(reader.i32()?)));
    Ok(Fields::Table {
        low,
        targets: targets.collect(),
        default: pc + i64::from(default),
    })
}

fn lookup_switch(reader: &mut Reader, pc: i64) -> Result<Fields, Wrong> {
    reader.align();
    let mut field = || reader.i32().ok_or(Wrong::Cut);
    let (default, many) = (field()?, field()?);
    if many < 0 {
        return Err(Wrong::Read);
    }
    if !reader.has(8 * i64::from(many)) {
        return Err(Wrong::Cut);
    }
    let pair = |_| Some((reader.i32()?, pc + i64::from(reader.i32()?)));
    Ok(Fields::Pairs {
        pairs: (0..many).map_while(pair).collect(),
        default: pc + i64::from(default),
    })
}
