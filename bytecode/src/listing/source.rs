//! The source of a sheet: the text of which `source::sheet` gives the sheet's bytes again.

use super::{arguments, hexadecimal, instructions::name, kind_name, value};
use crate::decoded::{pieces, Decoded, Fields, Piece};
use crate::instructions::switch_operands;
use crate::mnemonics;
use crate::sheet::{Constant, ConstantKind, Sheet};
use crate::source;
use std::collections::BTreeSet;

/// How many bytes a line of `bytes` has.
const BYTES_OF_LINE: usize = 16;

/// The offsets that have a label.
type Labels = BTreeSet<i64>;

/// The source of a sheet, in the syntax of [`crate::source`]. What has no other form there is given
/// by `bytes`: parts of the code, or the whole sheet.
///
/// # Panics
///
/// As [`Sheet::bytes`].
#[must_use]
pub fn source(sheet: &Sheet) -> String {
    let bytes = sheet.bytes();
    let text = source_of_parts(sheet).unwrap_or_default();
    // Asked of the text itself, so that no case is missed.
    if source::sheet(&text).is_ok_and(|given| given == bytes) {
        return text;
    }
    source_of_any_bytes(&bytes)
}

/// The source of bytes that may be no sheet.
#[must_use]
pub fn source_of_bytes(bytes: &[u8]) -> String {
    match Sheet::read(bytes) {
        Some(sheet) => source(&sheet),
        None => source_of_any_bytes(bytes),
    }
}

fn source_of_any_bytes(bytes: &[u8]) -> String {
    format!(
        "# Bytes, as no other lines give them.\n{}",
        lines_of_bytes(bytes, "")
    )
}

fn lines_of_bytes(bytes: &[u8], indent: &str) -> String {
    let lines = bytes.chunks(BYTES_OF_LINE);
    lines
        .map(|line| format!("{indent}bytes {}\n", hexadecimal(line)))
        .collect()
}

/// The source by its parts. Nothing where a part has no line.
fn source_of_parts(sheet: &Sheet) -> Option<String> {
    let pieces = pieces(&sheet.code);
    let labels = labels(sheet, &pieces);
    let mut text = format!(
        "# A method as its sheet has it.\nmax_stack {}\nmax_locals {}\n",
        sheet.max_stack, sheet.max_locals
    );
    if let Some(descriptor) = &sheet.descriptor {
        let descriptor = std::str::from_utf8(descriptor).ok()?;
        text += &format!("descriptor {descriptor}\n");
    }
    for constant in &sheet.constants {
        text += &constant_line(constant)?;
    }
    for handler in &sheet.handlers {
        text += &handler_line(*handler, &labels);
    }
    for line in arguments::said(sheet) {
        text += &format!("{line}\n");
    }
    text += "code\n";
    for piece in &pieces {
        text += &label_line(piece.at, &labels);
        text += &piece_lines(&sheet.code, piece, &labels);
    }
    Some(text + &label_line(sheet.code.len(), &labels))
}

/// The offsets that branches and handlers name, as far as a label may stand there: where a part of
/// the code begins, and at the end of the code.
fn labels(sheet: &Sheet, pieces: &[Piece]) -> Labels {
    let starts = pieces.iter().map(|piece| piece.at as i64);
    let starts: Labels = starts.chain([sheet.code.len() as i64]).collect();
    let by_name = |piece: &&Piece| is_said_by_name(&sheet.code, piece);
    let instructions = pieces.iter().filter(by_name).flat_map(|p| &p.instruction);
    let targets = instructions.flat_map(|instruction| instruction.fields.targets());
    let offsets = sheet.handlers.iter().flat_map(|fields| &fields[..3]);
    let named = targets.chain(offsets.copied().map(i64::from));
    named.filter(|offset| starts.contains(offset)).collect()
}

fn label_line(offset: usize, labels: &Labels) -> String {
    if labels.contains(&(offset as i64)) {
        return format!("L{offset}:\n");
    }
    String::new()
}

/// Whether the assembler gives an instruction's bytes by its name: it pads a switch with zeros.
fn is_said_by_name(code: &[u8], piece: &Piece) -> bool {
    match &piece.instruction {
        None => false,
        Some(instruction) => match instruction.fields {
            Fields::Numbers(_) | Fields::Branch(_) => true,
            Fields::Table { .. } | Fields::Pairs { .. } => {
                let padding = &code[piece.at + 1..switch_operands(piece.at)];
                padding.iter().all(|byte| *byte == 0)
            }
        },
    }
}

fn piece_lines(code: &[u8], piece: &Piece, labels: &Labels) -> String {
    match &piece.instruction {
        Some(instruction) if is_said_by_name(code, piece) => {
            let text = instruction_text(instruction, piece.at as i64, labels);
            format!("    {text}\n")
        }
        found => {
            let why = match found {
                Some(instruction) => format!("{}, not padded with zeros", name(instruction)),
                // An offset in a code has at most 32 bits.
                None => mnemonics::instruction(code, piece.at as u32),
            };
            let bytes = lines_of_bytes(&code[piece.at..][..piece.length], "    ");
            format!("    # {why}\n{bytes}")
        }
    }
}

fn instruction_text(instruction: &Decoded, pc: i64, labels: &Labels) -> String {
    let target = |target: i64| match labels.contains(&target) {
        true => format!(" L{target}"),
        false => format!(" {:+}", target - pc),
    };
    let operands = match &instruction.fields {
        Fields::Numbers(numbers) => numbers.iter().map(|number| format!(" {number}")).collect(),
        Fields::Branch(branch) => target(*branch),
        Fields::Table {
            low,
            targets,
            default,
        } => {
            let targets: String = targets.iter().copied().map(target).collect();
            format!(" {low}{targets} default{}", target(*default))
        }
        Fields::Pairs { pairs, default } => {
            let pairs = pairs
                .iter()
                .map(|(key, at)| format!(" {key}{}", target(*at)));
            format!("{} default{}", pairs.collect::<String>(), target(*default))
        }
    };
    name(instruction) + &operands
}

fn constant_line(constant: &Constant) -> Option<String> {
    let value = match (constant.kind, constant.bits) {
        (ConstantKind::Value(kind), bits) => {
            format!("{} {}", kind_name(kind), value::said(kind, bits))
        }
        (ConstantKind::Class, 0) => "class no".to_string(),
        (ConstantKind::Class, 1) => "class yes".to_string(),
        _ => return None,
    };
    Some(format!("constant {} {value}\n", constant.index))
}

fn handler_line(fields: [u16; 4], labels: &Labels) -> String {
    let offset = |offset: u16| match labels.contains(&offset.into()) {
        true => format!("L{offset}"),
        false => offset.to_string(),
    };
    let [start, end, at, catch_type] = fields;
    let catch_type = match catch_type {
        0 => "any".to_string(),
        index => index.to_string(),
    };
    let [start, end, at] = [start, end, at].map(offset);
    format!("handler {start} {end} {at} {catch_type}\n")
}
