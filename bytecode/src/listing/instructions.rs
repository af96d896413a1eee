//! The lines of a listing's instructions.

use super::{constant_value, first_bytes};
use crate::decoded::{pieces, Decoded, Fields, Piece};
use crate::mnemonics;
use crate::sheet::{Constant, Sheet};
use std::collections::HashMap;

/// The first constant of each index.
type Pool<'a> = HashMap<i32, &'a Constant>;

/// A line for each instruction, with more of them for a switch.
pub(super) fn lines(sheet: &Sheet) -> String {
    let mut pool = Pool::new();
    for constant in &sheet.constants {
        pool.entry(constant.index.into()).or_insert(constant);
    }
    let pieces = pieces(&sheet.code);
    let pieces = pieces.iter();
    let line = |piece| line(&sheet.code, piece, &pool);
    pieces.map(line).collect()
}

fn line(code: &[u8], piece: &Piece, pool: &Pool) -> String {
    let Some(instruction) = &piece.instruction else {
        // An offset in a code has at most 32 bits.
        let wrong = mnemonics::instruction(code, piece.at as u32);
        let bytes = first_bytes(&code[piece.at..][..piece.length]);
        return format!("{:>6}: {wrong:<32} // {bytes}\n", piece.at);
    };
    let name = name(instruction);
    let operands = operands(instruction);
    let text = match comment(instruction, pool) {
        Some(comment) => format!("{:>6}: {name:<13} {operands:<18} // {comment}", piece.at),
        None => format!("{:>6}: {name:<13} {operands}", piece.at),
    };
    format!("{}\n", text.trim_end())
}

/// The name of an instruction, with that of the one that it widens.
pub(super) fn name(instruction: &Decoded) -> String {
    match instruction.widened {
        Some(widened) => format!("{} {}", instruction.entry.name, widened.name),
        None => instruction.entry.name.to_string(),
    }
}

fn operands(instruction: &Decoded) -> String {
    match &instruction.fields {
        Fields::Numbers(numbers) => {
            let mark = if takes_constant(instruction) { "#" } else { "" };
            let numbers = numbers.iter().map(|number| format!("{mark}{number}"));
            numbers.collect::<Vec<_>>().join(", ")
        }
        Fields::Branch(target) => target.to_string(),
        Fields::Table {
            low,
            targets,
            default,
        } => {
            let high = i64::from(*low) + targets.len() as i64 - 1;
            let entries = (i64::from(*low)..).zip(targets.iter().copied());
            switch(&format!("{low} to {high}"), entries, *default)
        }
        Fields::Pairs { pairs, default } => {
            let entries = pairs.iter().map(|(key, target)| (i64::from(*key), *target));
            switch(&pairs.len().to_string(), entries, *default)
        }
    }
}

/// The lines of a switch, from its brace on.
fn switch(comment: &str, entries: impl Iterator<Item = (i64, i64)>, default: i64) -> String {
    let mut text = format!("{{ // {comment}\n");
    for (key, target) in entries {
        text += &format!("{key:>21}: {target}\n");
    }
    text + &format!("{:>21}: {default}\n{:>9}", "default", "}")
}

fn takes_constant(instruction: &Decoded) -> bool {
    matches!(instruction.entry.name, "ldc" | "ldc_w" | "ldc2_w")
}

/// The constant that an instruction takes.
fn comment(instruction: &Decoded, pool: &Pool) -> Option<String> {
    let (true, Fields::Numbers(numbers)) = (takes_constant(instruction), &instruction.fields)
    else {
        return None;
    };
    let constant = pool.get(numbers.first()?);
    Some(constant.map_or("no constant".to_string(), |constant| {
        constant_value(constant)
    }))
}
