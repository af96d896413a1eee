//! `workbook opcodes`: the page of opcodes (docs/RULES.md, 'The page of opcodes'), with the names.

use crate::failure::Failure;
use crate::output::print;
use workbook_host::instructions::of_opcode;

/// The page: a line for each opcode, with its length and the places that it pops and pushes.
const PAGE: &str = include_str!("../../../../crates/opcode_page/stdout");

const USAGE: &str = "usage: workbook opcodes";

/// Prints the page, with the name of each of the 164 instructions after its line.
pub fn opcodes(words: &[String]) -> Result<(), Failure> {
    if !words.is_empty() {
        return Err(Failure::Call(USAGE.to_string()));
    }
    print(&PAGE.lines().map(line).collect::<String>())
}

fn line(line: &str) -> String {
    let opcode = line.split(' ').next().and_then(|word| word.parse().ok());
    match opcode.and_then(of_opcode) {
        // The longest line of the page has 11 characters.
        Some(instruction) => format!("{line:<11} {}\n", instruction.name),
        None => format!("{line}\n"),
    }
}
