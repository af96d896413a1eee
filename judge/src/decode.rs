//! Questions 4 and 5: an instruction as it lies in the code, and the switches.

use crate::answers::ask;
use bytecode::instructions::{of_opcode, switch_operands, widened, Operands};

/// An instruction with its operands. `ILOAD_2` is `ILOAD` with index 2, and what `WIDE` widens stands
/// for itself.
#[derive(Clone, Copy, Debug, PartialEq, Eq)]
pub struct Decoded {
    /// Its opcode.
    pub opcode: u8,
    /// The index of a local or of a constant.
    pub index: usize,
    /// A constant, a distance, or the default of a switch.
    pub constant: i32,
    /// Where it lies.
    pub pc: usize,
    /// How many bytes it has.
    pub length: usize,
}

/// The instruction at an offset, or the number of the refusal. No byte there is question 5's no.
pub fn decode(code: &[u8], pc: usize) -> Result<Decoded, u32> {
    let [opcode] = bytes(code, pc)?;
    let operands = of_opcode(opcode).ok_or(4_u32)?.operands;
    match operands {
        Operands::TableSwitch => table_switch(code, pc),
        Operands::LookupSwitch => lookup_switch(code, pc),
        Operands::Wide => {
            let [opcode] = bytes(code, pc + 1)?;
            let operands = widened(opcode).ok_or(4_u32)?;
            fixed(code, pc, 2, opcode, operands)
        }
        _ => fixed(code, pc, 1, opcode, operands),
    }
}

/// An instruction whose operands stand so far behind its offset, as many as its opcode says.
fn fixed(
    code: &[u8],
    pc: usize,
    so_far: usize,
    opcode: u8,
    operands: Operands,
) -> Result<Decoded, u32> {
    let (at, size) = (pc + so_far, operands.length().unwrap_or(0));
    ask(at + size <= code.len(), 5)?;
    let (index, constant): (usize, i32) = match operands {
        Operands::Byte => (0, i8::from_be_bytes(bytes(code, at)?).into()),
        Operands::Short | Operands::Branch => (0, i16::from_be_bytes(bytes(code, at)?).into()),
        Operands::LongBranch => (0, number(code, at)?),
        Operands::Index => (code[at].into(), 0),
        Operands::LongIndex => (u16::from_be_bytes(bytes(code, at)?).into(), 0),
        Operands::Increment => (code[at].into(), (code[at + 1] as i8).into()),
        Operands::LongIncrement => {
            let index = u16::from_be_bytes(bytes(code, at)?);
            (
                index.into(),
                i16::from_be_bytes(bytes(code, at + 2)?).into(),
            )
        }
        _ => (0, 0),
    };
    let (opcode, index) = match opcode {
        26..=45 => (21 + (opcode - 26) / 4, usize::from((opcode - 26) % 4)),
        59..=78 => (54 + (opcode - 59) / 4, usize::from((opcode - 59) % 4)),
        _ => (opcode, index),
    };
    Ok(Decoded {
        opcode,
        index,
        constant,
        pc,
        length: so_far + size,
    })
}

/// The bytes at an offset: question 5.
fn bytes<const N: usize>(code: &[u8], at: usize) -> Result<[u8; N], u32> {
    let found = code.get(at..).and_then(|rest| rest.first_chunk());
    found.copied().ok_or(5)
}

fn number(code: &[u8], at: usize) -> Result<i32, u32> {
    bytes(code, at).map(i32::from_be_bytes)
}

fn table_switch(code: &[u8], pc: usize) -> Result<Decoded, u32> {
    let at = switch_operands(pc);
    let [constant, low, high] = [
        number(code, at)?,
        number(code, at + 4)?,
        number(code, at + 8)?,
    ];
    ask(low <= high, 6)?;
    let entries = i64::from(high) - i64::from(low) + 1;
    ask(at as i64 + 12 + 4 * entries <= code.len() as i64, 5)?;
    Ok(Decoded {
        opcode: 170,
        index: 0,
        constant,
        pc,
        length: at - pc + 12 + 4 * entries as usize,
    })
}

fn lookup_switch(code: &[u8], pc: usize) -> Result<Decoded, u32> {
    let at = switch_operands(pc);
    let [constant, many] = [number(code, at)?, number(code, at + 4)?];
    ask(many >= 0, 6)?;
    let many = many as usize;
    ask(at + 8 + 8 * many <= code.len(), 5)?;
    let keys = pairs(&code[at + 8..][..8 * many]).map(|(key, _)| key);
    ask(keys.is_sorted_by(|one, next| one < next), 6)?;
    Ok(Decoded {
        opcode: 171,
        index: 0,
        constant,
        pc,
        length: at - pc + 8 + 8 * many,
    })
}

/// The keys and distances of a `LOOKUPSWITCH`.
fn pairs(table: &[u8]) -> impl Iterator<Item = (i32, i32)> + '_ {
    table.chunks_exact(8).map(|pair| {
        let half = |from| number(pair, from).expect("eight bytes");
        (half(0), half(4))
    })
}

impl Decoded {
    /// The keys of a switch of this code with their distances.
    pub fn entries<'a>(&self, code: &'a [u8]) -> Box<dyn Iterator<Item = (i32, i32)> + 'a> {
        let at = switch_operands(self.pc);
        let end = self.pc + self.length;
        if self.opcode == 171 {
            return Box::new(pairs(&code[at + 8..end]));
        }
        let low = number(code, at + 4).expect("a decoded switch");
        let table = code[at + 12..end].chunks_exact(4).enumerate();
        Box::new(table.map(move |(place, entry)| {
            let distance = number(entry, 0).expect("four bytes");
            (low.wrapping_add(place as i32), distance)
        }))
    }

    /// How far a switch goes for a key.
    pub fn chosen(&self, code: &[u8], key: i32) -> i32 {
        let found = self.entries(code).find(|entry| entry.0 == key);
        found.map_or(self.constant, |entry| entry.1)
    }
}
