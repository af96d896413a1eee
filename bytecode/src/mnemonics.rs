//! Instructions as text, for display only: no step depends on anything here. The library reads the
//! code itself and decides what is refused.

use crate::instructions::{of_opcode, widened, Operands};
use crate::reader::Reader;

/// The instruction at an offset as text: its name, then its operands in decimal, the targets of
/// branches as offsets in the code. Where there is no whole instruction, the text says so.
#[must_use]
pub fn instruction(code: &[u8], pc: u32) -> String {
    let at = pc as usize;
    let Some(&opcode) = code.get(at) else {
        return "outside of the code".to_string();
    };
    let Some(found) = of_opcode(opcode) else {
        return format!("unknown byte {opcode}");
    };
    let mut reader = Reader::new(code, at + 1);
    match text_of(found.operands, &mut reader, i64::from(pc)) {
        Some(text) => format!("{}{text}", found.name),
        None => format!("{} (cut off by the end of the code)", found.name),
    }
}

/// The operands as text, with a space before it. Nothing where the code ends inside of them.
fn text_of(operands: Operands, reader: &mut Reader, pc: i64) -> Option<String> {
    Some(match operands {
        Operands::None => String::new(),
        Operands::Byte => format!(" {}", reader.i8()?),
        Operands::Short => format!(" {}", reader.i16()?),
        Operands::Index => format!(" {}", reader.u8()?),
        Operands::LongIndex => format!(" {}", reader.u16()?),
        Operands::Increment => format!(" {} {}", reader.u8()?, reader.i8()?),
        Operands::LongIncrement => format!(" {} {}", reader.u16()?, reader.i16()?),
        Operands::Branch => format!(" {}", pc + i64::from(reader.i16()?)),
        Operands::LongBranch => format!(" {}", pc + i64::from(reader.i32()?)),
        Operands::TableSwitch => table_switch(reader, pc)?,
        Operands::LookupSwitch => lookup_switch(reader, pc)?,
        Operands::Wide => wide(reader, pc)?,
    })
}

/// The second instruction of a `wide`, with operands of two bytes.
fn wide(reader: &mut Reader, pc: i64) -> Option<String> {
    let opcode = reader.u8()?;
    let Some(operands) = widened(opcode) else {
        return Some(format!(" (cannot widen byte {opcode})"));
    };
    let name = of_opcode(opcode)?.name;
    Some(format!(" {name}{}", text_of(operands, reader, pc)?))
}

/// A table of targets, one for each index from the lowest to the highest.
fn table_switch(reader: &mut Reader, pc: i64) -> Option<String> {
    reader.align();
    let (default, low, high) = (reader.i32()?, reader.i32()?, reader.i32()?);
    if low > high {
        return Some(format!(
            " (lowest index {low} is above highest index {high})"
        ));
    }
    let length = i64::from(high) - i64::from(low) + 1;
    if !reader.has(4 * length) {
        return None;
    }
    let mut text = String::new();
    for index in low..=high {
        text += &format!(" {index}: {},", pc + i64::from(reader.i32()?));
    }
    Some(text + &default_text(default, pc))
}

/// Pairs of a key and a target.
fn lookup_switch(reader: &mut Reader, pc: i64) -> Option<String> {
    reader.align();
    let (default, pairs) = (reader.i32()?, reader.i32()?);
    if pairs < 0 {
        return Some(format!(" (number of pairs {pairs} is negative)"));
    }
    if !reader.has(8 * i64::from(pairs)) {
        return None;
    }
    let mut text = String::new();
    for _ in 0..pairs {
        text += &format!(" {}: {},", reader.i32()?, pc + i64::from(reader.i32()?));
    }
    Some(text + &default_text(default, pc))
}

fn default_text(distance: i32, pc: i64) -> String {
    format!(" default: {}", pc + i64::from(distance))
}
