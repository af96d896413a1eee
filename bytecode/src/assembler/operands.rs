//! An instruction of a listing, from its words to its bytes.

use crate::error::shown;
use crate::instructions::{of_name, of_opcode, switch_operands, widened, Instruction, Operands};
use crate::suggestion::question;
use crate::values;
use std::ops::RangeInclusive;

/// The distance of a target from an offset.
pub(super) type Distance<'a> = dyn Fn(&str, usize) -> Result<i64, String> + 'a;

/// Writes the bytes of an instruction, or says what is wrong with it.
pub(super) fn encode(
    code: &mut Vec<u8>,
    words: &[&str],
    distance: &Distance,
) -> Result<(), String> {
    let (name, words) = words.split_first().ok_or("there is no instruction")?;
    match *name {
        "bytes" => code.extend(values::bytes(&words.concat())?),
        "numbers" => {
            for word in words {
                put(code, NUMBER, number(name, NUMBER, word)?);
            }
        }
        _ => instruction(code, known(name)?, words, distance)?,
    }
    Ok(())
}

/// The instruction of a name.
fn known(name: &str) -> Result<Instruction, String> {
    of_name(name).ok_or_else(|| {
        let all = (0..=255).filter_map(of_opcode).map(|entry| entry.name);
        let names = all.chain(["bytes", "numbers"]);
        let question = question(name, names);
        format!("there is no instruction {}{question}", shown(name))
    })
}

fn instruction(
    code: &mut Vec<u8>,
    entry: Instruction,
    words: &[&str],
    distance: &Distance,
) -> Result<(), String> {
    let pc = code.len();
    code.push(entry.opcode);
    match entry.operands {
        Operands::TableSwitch | Operands::LookupSwitch => {
            switch(code, entry, words, &|target| distance(target, pc))
        }
        Operands::Wide => wide(code, words),
        Operands::Branch | Operands::LongBranch => {
            let [target] = words else {
                return Err(format!("{} takes one label", entry.name));
            };
            let field = Field {
                size: entry.operands.length().unwrap_or(0),
                signed: true,
            };
            put(
                code,
                field,
                reached(entry, field, target, distance(target, pc)?)?,
            );
            Ok(())
        }
        fixed => numbers(code, entry.name, entry, fixed, words),
    }
}

/// A distance that the field of a branch holds.
fn reached(entry: Instruction, field: Field, target: &str, far: i64) -> Result<i64, String> {
    if field.range().contains(&far) {
        return Ok(far);
    }
    let (name, range) = (entry.name, shown_range(&field.range()));
    // The one branch with a longer form.
    let longer = if name == "goto" {
        "; goto_w reaches further"
    } else {
        ""
    };
    let target = shown(target);
    if target.starts_with(['+', '-']) {
        return Err(format!("{name} takes {range}, not {target}{longer}"));
    }
    Err(format!(
        "{name} reaches {range} bytes, and {target} is {far} bytes away{longer}"
    ))
}

/// A number of an instruction: how many bytes it has, and whether it has a sign.
#[derive(Clone, Copy)]
struct Field {
    size: usize,
    signed: bool,
}

const NUMBER: Field = field(4, true);

const fn field(size: usize, signed: bool) -> Field {
    Field { size, signed }
}

impl Field {
    /// The numbers that it holds.
    fn range(self) -> RangeInclusive<i64> {
        let values = 1_i64 << (8 * self.size);
        let least = if self.signed { -values / 2 } else { 0 };
        least..=least + values - 1
    }
}

fn shown_range(range: &RangeInclusive<i64>) -> String {
    format!("{} to {}", range.start(), range.end())
}

/// The fields of operands that are numbers.
fn fields(operands: Operands) -> &'static [Field] {
    const SIGNED: [Field; 2] = [field(1, true), field(2, true)];
    const INDEX: [Field; 2] = [field(1, false), field(2, false)];
    match operands {
        Operands::Byte => &[SIGNED[0]],
        Operands::Short => &[SIGNED[1]],
        Operands::Index => &[INDEX[0]],
        Operands::LongIndex => &[INDEX[1]],
        Operands::Increment => &[INDEX[0], SIGNED[0]],
        Operands::LongIncrement => &[INDEX[1], SIGNED[1]],
        _ => &[],
    }
}

/// Operands that are numbers, of an instruction that a `wide` may stand before.
fn numbers(
    code: &mut Vec<u8>,
    name: &str,
    entry: Instruction,
    operands: Operands,
    words: &[&str],
) -> Result<(), String> {
    let fields = self::fields(operands);
    if fields.len() != words.len() {
        return Err(match fields.len() {
            0 => format!("{name} takes nothing after it"),
            1 => format!("{name} takes one number"),
            _ => format!("{name} takes two numbers, a local and what is added to it"),
        });
    }
    for (place, (&field, word)) in fields.iter().zip(words).enumerate() {
        let number = number(name, field, word);
        let number = number.map_err(|what| what + &wider(entry, operands, place, word));
        put(code, field, number?);
    }
    Ok(())
}

/// The end of a sentence that says what the widened instruction takes, where that would do.
fn wider(entry: Instruction, operands: Operands, place: usize, word: &str) -> String {
    let longer = widened(entry.opcode).filter(|longer| *longer != operands);
    let field = longer.and_then(|longer| fields(longer).get(place));
    let (Some(field), Ok(number)) = (field, word.parse()) else {
        return String::new();
    };
    let range = field.range();
    if !range.contains(&number) {
        return String::new();
    }
    format!("; wide {} takes {}", entry.name, shown_range(&range))
}

fn wide(code: &mut Vec<u8>, words: &[&str]) -> Result<(), String> {
    let takes = "loads and stores of a local, and iinc";
    let Some((name, rest)) = words.split_first() else {
        return Err(format!("wide stands before {takes}"));
    };
    let entry = known(name)?;
    let operands = widened(entry.opcode)
        .ok_or_else(|| format!("wide stands before {takes}, not before {name}"))?;
    code.push(entry.opcode);
    numbers(code, &format!("wide {name}"), entry, operands, rest)
}

/// The bytes up to the next multiple of 4, the fixed fields and the table.
fn switch(
    code: &mut Vec<u8>,
    entry: Instruction,
    words: &[&str],
    distance: &dyn Fn(&str) -> Result<i64, String>,
) -> Result<(), String> {
    let (name, pc) = (entry.name, code.len() - 1);
    let [entries @ .., "default", default] = words else {
        return Err(format!("{name} ends with default and a label"));
    };
    let far = |target: &str| reached(entry, NUMBER, target, distance(target)?);
    let mut numbers = vec![far(default)?];
    if entry.operands == Operands::TableSwitch {
        let Some((low, targets)) = entries.split_first() else {
            return Err(format!("{name} begins with its lowest index"));
        };
        let low = number(name, NUMBER, low)?;
        let high = low + targets.len() as i64 - 1;
        numbers.extend([low, number(name, NUMBER, &high.to_string())?]);
        for target in targets {
            numbers.push(far(target)?);
        }
    } else {
        numbers.push(entries.len() as i64 / 2);
        for pair in entries.chunks(2) {
            let [key, target] = pair else {
                return Err(format!("{name} takes a label after each key"));
            };
            numbers.extend([number(name, NUMBER, key)?, far(target)?]);
        }
    }
    code.resize(switch_operands(pc), 0);
    for number in numbers {
        put(code, NUMBER, number);
    }
    Ok(())
}

/// A number that a field of an instruction holds.
fn number(name: &str, field: Field, word: &str) -> Result<i64, String> {
    let range = field.range();
    let number = word.parse().ok().filter(|number| range.contains(number));
    number.ok_or_else(|| format!("{name} takes {}, not {}", shown_range(&range), shown(word)))
}

/// Writes a number into its field, big-endian.
fn put(code: &mut Vec<u8>, field: Field, number: i64) {
    code.extend(&number.to_be_bytes()[8 - field.size..]);
}
