//! The code of a listing.
//!
//! A listing has instructions on lines or between semicolons, and before any of them labels with a
//! colon. A branch names a label, or gives a distance from its opcode with a sign. A switch has the
//! form `tableswitch LOW LABEL ... default LABEL` or `lookupswitch KEY LABEL ... default LABEL`.
//! Besides instructions there are `bytes` with bytes in hexadecimal, and `numbers` with numbers of 4
//! bytes each, for code that is wrong.
//!
//! ```
//! let code = bytecode::assembler::assemble("again: iinc 0 -1; iload_0; ifne again; return");
//! assert_eq!(code, Ok(vec![0x84, 0x00, 0xFF, 0x1A, 0x9A, 0xFF, 0xFC, 0xB1]));
//! ```

mod operands;
#[cfg(test)]
mod tests;

use crate::error::{shown, Error};
use crate::suggestion::question;
use std::collections::HashMap;

/// The offsets of labels.
pub type Labels<'a> = HashMap<&'a str, usize>;

/// The code of a listing, or what is wrong in it.
pub fn assemble(listing: &str) -> Result<Vec<u8>, Error> {
    assemble_with_labels(listing).map(|(code, _)| code)
}

/// The code of a listing, and where its labels are. One after the last instruction is at the code's
/// end.
pub fn assemble_with_labels(listing: &str) -> Result<(Vec<u8>, Labels<'_>), Error> {
    assemble_within(listing, 1, usize::MAX)
}

/// The same for a code of at most so many bytes, where the first line has another number than 1.
pub(crate) fn assemble_within(
    listing: &str,
    first: usize,
    most: usize,
) -> Result<(Vec<u8>, Labels<'_>), Error> {
    let (labels, mut code) = (labels(listing, first, most)?, vec![]);
    for item in items(listing, first).filter(|item| item.label().is_none()) {
        let encoded = operands::encode(&mut code, &item.words, &|target, pc| {
            distance(target, pc, &labels)
        });
        encoded.map_err(|what| Error::new(item.line, what))?;
    }
    Ok((code, labels))
}

/// A label with its colon, or an instruction, as its words.
struct Item<'a> {
    line: usize,
    words: Vec<&'a str>,
}

impl<'a> Item<'a> {
    /// The name of a label; none for an instruction.
    fn label(&self) -> Option<&'a str> {
        match self.words[..] {
            [word] => word.strip_suffix(':'),
            _ => None,
        }
    }

    /// Whether a colon stands where it makes no label.
    fn has_stray_colon(&self) -> bool {
        self.label().is_none() && self.words.iter().any(|word| word.ends_with(':'))
    }
}

fn items(listing: &str, first: usize) -> impl Iterator<Item = Item<'_>> {
    (first..).zip(listing.split('\n')).flat_map(|(line, text)| {
        let items = text.split(';').flat_map(|part| part.split_inclusive(':'));
        let items = items.map(move |item| Item {
            line,
            words: item.split_whitespace().collect(),
        });
        items.filter(|item| !item.words.is_empty())
    })
}

/// Where the labels are. No length depends on a label, so that any distance does here.
fn labels(listing: &str, first: usize, most: usize) -> Result<Labels<'_>, Error> {
    let (mut labels, mut lines, mut code) = (Labels::new(), Labels::new(), vec![]);
    for item in items(listing, first) {
        let wrong = |what: String| Error::new(item.line, what);
        let Some(name) = item.label() else {
            if item.has_stray_colon() {
                let words = shown(&item.words.join(" "));
                return Err(wrong(format!(
                    "a label is one word with a colon, not {words}"
                )));
            }
            operands::encode(&mut code, &item.words, &|_, _| Ok(0)).map_err(wrong)?;
            if code.len() > most {
                return Err(wrong(format!("the code has more than {most} bytes")));
            }
            continue;
        };
        named(name).map_err(wrong)?;
        if let Some(before) = lines.insert(name, item.line) {
            return Err(wrong(twice(name, before, item.line)));
        }
        labels.insert(name, code.len());
    }
    Ok(labels)
}

/// Refuses a name that no branch could give: a sign begins a distance.
fn named(label: &str) -> Result<(), String> {
    if label.is_empty() {
        return Err("a colon stands after the name of a label".to_string());
    }
    if label.starts_with(['+', '-']) {
        let label = shown(label);
        return Err(format!(
            "the label {label} begins with a sign, as a distance does"
        ));
    }
    Ok(())
}

fn twice(name: &str, first: usize, second: usize) -> String {
    let name = shown(name);
    if first == second {
        format!("the label {name} stands twice in line {first}")
    } else {
        format!("the label {name} stands twice, in lines {first} and {second}")
    }
}

/// How far a target is from the opcode of its branch.
fn distance(target: &str, pc: usize, labels: &Labels) -> Result<i64, String> {
    let shown = shown(target);
    if target.starts_with(['+', '-']) {
        let distance = target.parse();
        return distance.map_err(|_| format!("{shown} is no distance, as +3 and -3 are"));
    }
    let Some(offset) = labels.get(target) else {
        let hint = if target.bytes().all(|byte| byte.is_ascii_digit()) {
            format!("; a distance has a sign, as +{shown}")
        } else {
            question(target, labels.keys().copied())
        };
        return Err(format!("there is no label {shown}{hint}"));
    };
    Ok(*offset as i64 - pc as i64)
}
