//! A smaller memory on which a call still goes wrong, for whoever has to find out why.

use super::compare;
use super::lent::Element;
use super::memory::{Function, Memory};

/// Parts up to this length lose single elements.
const SHORT: usize = 100;
/// Budgets above this are not tried on other code: they may have no end.
const BUDGET: u64 = 10_000;

/// The smallest memory that cutting parts and setting elements to 0 leads to, one change at a time,
/// and what goes wrong there.
pub fn smallest(function: Function, memory: &Memory, what: String) -> (Memory, String) {
    let mut least = (memory.clone(), what);
    while let Some(next) = smaller(function, &least.0) {
        least = next;
    }
    least
}

fn smaller(function: Function, memory: &Memory) -> Option<(Memory, String)> {
    let still_wrong = |before: Memory| {
        let what = compare(function, &before, &mut before.clone()).err()?;
        Some((before, what))
    };
    let budgets = [memory.budget.min(BUDGET), memory.budget / 2];
    let less = budgets.into_iter().filter(|less| *less < memory.budget);
    let found = less
        .map(|budget| Memory {
            budget,
            ..memory.clone()
        })
        .find_map(still_wrong);
    if found.is_some() || memory.budget > BUDGET {
        return found;
    }
    macro_rules! part {
        ($name:ident) => {
            simpler(memory.$name.part()).map(|part| Memory {
                $name: memory.$name.with(&part),
                ..memory.clone()
            })
        };
    }
    with_simpler_code(function, memory)
        .into_iter()
        .chain(part!(presses))
        .chain(part!(handlers))
        .chain(part!(log))
        .chain(part!(slots))
        .chain(part!(kinds))
        .chain(part!(words))
        .chain(part!(state))
        .chain(part!(answer))
        .chain(part!(answers))
        .find_map(still_wrong)
}

/// The memory with its code alone, and with a simpler code or sheet.
fn with_simpler_code(function: Function, memory: &Memory) -> Vec<Memory> {
    let (sheet, code) = (memory.sheet.part(), memory.code());
    let alone = (code.len() < sheet.len()).then(|| code.to_vec());
    let codes: Vec<Vec<u8>> = match function {
        Function::Load => simpler(sheet).collect(),
        _ => alone.into_iter().chain(simpler(code)).collect(),
    };
    let with_code = |code: Vec<u8>| Memory {
        sheet: memory.sheet.with(&code),
        code: 0..code.len(),
        ..memory.clone()
    };
    codes.into_iter().map(with_code).collect()
}

/// The part without its second half or its last element, then with one element less that is not 0.
fn simpler<T: Element>(part: &[T]) -> impl Iterator<Item = Vec<T>> + '_ {
    let length = part.len();
    let cuts = [length / 2, length.saturating_sub(1)];
    let shorter = cuts.into_iter().filter(move |cut| *cut < length);
    let zero = T::default();
    let places = (0..length.min(SHORT)).filter(move |place| part[*place] != zero);
    let zeroed = places.map(move |place| {
        let mut simpler = part.to_vec();
        simpler[place] = zero;
        simpler
    });
    shorter.map(|cut| part[..cut].to_vec()).chain(zeroed)
}
