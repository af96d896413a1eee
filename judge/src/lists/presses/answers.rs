//! What crates/press_lists must print.
//!
//! An answer is these lines for each sample, in the same order. Slots, checksums and values are upper-case
//! hexadecimal, other numbers are decimal, and an empty list is -:
//!
//! ```text
//! NAME
//! sheet N                          where the load is refused, and then only the empty line
//! presses N                        the number that the list comes back with: 0, or 1 with fewer than three answer words for each press
//! answers ITEMS                    for each press its number, for 101 to 105 with a colon and the value, 8 or 16 digits; - after 1
//! state SIX NUMBERS                after the list: max_stack, max_locals, pc, depth, count and the return type
//! slots WORDS                      all that are lent
//! log SUM                          the checksum of all log words
//! words SUM                        that of all answer words
//! run BUDGET STEPS stopped         a run with that count as its budget, on what the load left, and the steps that it took
//! same                             that run ended at the offset, the depth and the slots of the list
//! (an empty line)
//! ```
//!
//! The lines of the run stand only where the list begins at the load. After the last sample there is one more line:
//!
//! ```text
//! lists L presses P forwards F backs B refused R outcomes O
//! ```
//!
//! It tells how many lists came back with 0, how many presses they had, and how many of these were granted forwards, granted
//! backs, refused presses, and presses that met a return or an exception.
//!
//! A list from a load is judged by the plain walk, which has no log to go back by, and once more by forward and back with their
//! log; the two have to agree at each press. Lists from other states are judged by forward and back alone; but for those over
//! entries without a pattern, each says by hand what it gives.

use super::methods::{loaded, Loaded};
use super::{Begin, List, Lists, SHORT};
use crate::answers::Answer;
use crate::history::{press, ENTRY};
use crate::lists::scatter::checksum;
use crate::lists::text::{joined, listed};
use crate::lists::traces::shown;
use crate::plain_walk::PlainWalk;
use crate::step::{run, State};
use std::collections::BTreeSet;

/// The first entries that some lists from a load leave, by hand; words past those given are 0.
#[rustfmt::skip]
const LOGS: [(&str, &[&[u32]]); 9] = [
    ("no locals there and back", &[&[0, 0, 0, 1, 0], &[1, 1, 1, 1, 0], &[2, 2, 0, 1, 3]]),
    ("stack there and back", &[
        &[0, 0, 5, 1, 0], &[1, 1, 6, 1, 0], &[2, 2, 7, 2, 0, 0], &[3, 4, 5, 6, 11, 12, 13, 14, 0, 0], &[4, 6, 0, 0],
        &[5, 4, 5, 6, 13, 14, 11, 12, 13, 14],
    ]),
    ("stores there and back", &[
        &[0, 0, 4, 1, 0], &[1, 1, 3, 1, 0], &[2, 0, 3, 1, -5_i32 as u32], &[5, 0, 4, 2, -5_i32 as u32, 0],
        &[6, 2, 2, 2, 0, -12_i32 as u32], &[7, 0, 2, 1, -5_i32 as u32],
    ]),
    ("wide there and back", &[&[0, 0, 1, 1, 310], &[6, 0, 6, 2, 0, 0], &[10, 2, 4, 2, 10, 11]]),
    ("no frame there and back", &[&[0, 0, 0, 0], &[1, 0, 0, 0]]),
    ("divisions there and back", &[
        &[0, 0, 3, 1, 0], &[2, 1, 4, 1, 0], &[3, 2, 3, 1, 100], &[4, 1, 1, 1, 0], &[5, 0, 3, 2, 33, 3],
    ]),
    ("caught there and back", &[
        &[0, 0, 2, 1, 0], &[1, 1, 3, 1, 0], &[2, 2, 4, 1, 0], &[3, 3, 2, 1, 5], &[6, 1, 3, 1, 4], &[7, 2, 2, 1, 1],
    ]),
    ("caught as a byte there and back", &[&[0, 0, 2, 2, 0, 0], &[1, 2, 4, 2, 0, 0], &[2, 4, 2, 1, u32::MAX], &[4, 1, 3, 1, u32::MAX]]),
    ("references there and back", &[&[0, 0, 3, 1, 0], &[1, 1, 0, 0], &[4, 0, 2, 1, 0]]),
];

/// What a list gives that came back with 0.
struct Made {
    answers: Vec<Answer>,
    state: State,
    slots: Vec<u32>,
    log: Vec<u32>,
}

impl Made {
    /// The answers as they are printed.
    fn items(&self) -> String {
        let item = |answer: &Answer| match answer.value() {
            value if value.is_empty() => answer.number.to_string(),
            value => format!("{}:{value}", answer.number),
        };
        let items: Vec<String> = self.answers.iter().map(item).collect();
        if items.is_empty() {
            "-".to_string()
        } else {
            items.join(" ")
        }
    }
}

/// The file of answers.
pub fn stdout(lists: &Lists) -> Result<Vec<u8>, String> {
    let mut totals = Totals::default();
    let mut lines = vec![];
    for (name, _) in LOGS {
        let there = lists.lists.iter().any(|list| list.name == name);
        expect(there, || format!("there is no list {name}"))?;
    }
    for list in &lists.lists {
        let answer = answer(list, &mut totals).map_err(|what| format!("{} {what}", list.name))?;
        lines.push(list.name.clone());
        lines.extend(answer);
        lines.push(String::new());
    }
    lines.push(totals.line(lists)?);
    Ok(joined(lines))
}

/// The lines of a list, without its name.
fn answer(list: &List, totals: &mut Totals) -> Result<Vec<String>, String> {
    let begun = match loaded(&list.sheet, list.slots, list.pool, list.begin) {
        Ok(begun) => begun,
        Err(number) => {
            let line = format!("sheet {number}");
            expect(list.gives.as_ref() == Some(&line), || {
                format!("gives {line}")
            })?;
            return Ok(vec![line]);
        }
    };
    let short = list.words < 3 * list.presses.len();
    let presses = if short { &[] } else { &list.presses[..] };
    let made = made(list, &begun, presses)?;
    if !short {
        totals.add(list, &made);
    }
    check(list, &begun, &made, short)?;
    let mut words = vec![0xFACE_FACE; list.words];
    let answered = made.answers.iter().flat_map(|answer| answer.words());
    words
        .iter_mut()
        .zip(answered)
        .for_each(|(word, answer)| *word = answer);
    let [slots, state] = shown(&made.slots, &made.state);
    let mut lines = vec![
        format!("presses {}", u32::from(short)),
        format!("answers {}", made.items()),
        state,
        slots,
        format!("log {:08X}", checksum(made.log.iter().copied())),
        format!("words {:08X}", checksum(words)),
    ];
    if list.begin == Begin::LOAD {
        lines.extend(run_lines(&begun, &made)?);
    }
    Ok(lines)
}

fn expect(yes: bool, what: impl FnOnce() -> String) -> Result<(), String> {
    yes.then_some(()).ok_or_else(what)
}

/// Makes the presses. From a load the plain walk has to agree at each of them.
fn made(list: &List, begun: &Loaded, presses: &[u8]) -> Result<Made, String> {
    let method = begun.method();
    let mut made = Made {
        answers: vec![],
        state: begun.state,
        slots: begun.slots.clone(),
        log: list.log.clone(),
    };
    let mut plain = PlainWalk::new(method, &begun.slots, begun.state, list.log.len());
    for &byte in presses {
        let answer = press(
            &method,
            &mut made.slots,
            &mut made.log,
            &mut made.state,
            byte,
        );
        made.answers.push(answer);
        if list.begin == Begin::LOAD {
            let same =
                plain.press(byte) == answer && plain.reached() == (made.state, &made.slots[..]);
            expect(same, || "goes another way than the plain walk".to_string())?;
        }
    }
    let granted = |back: bool| {
        let pairs = presses.iter().zip(&made.answers);
        let pairs = pairs.filter(|(byte, answer)| answer.number == 0 && (**byte == 0) == back);
        pairs.count() as u64
    };
    let count = list.begin.count + granted(false) - granted(true);
    expect(made.state.count == count, || "miscounts".to_string())?;
    Ok(made)
}

/// The lines of the run from a load; it has to end where the list did.
fn run_lines(begun: &Loaded, made: &Made) -> Result<[String; 2], String> {
    let (mut slots, mut state) = (begun.slots.clone(), begun.state);
    let count = made.state.count;
    let (end, steps) = run(&begun.method(), &mut slots, &mut state, count);
    let same = state
        == State {
            count: 0,
            ..made.state
        }
        && slots == made.slots;
    let stopped = end == Answer::STOPPED && steps == count;
    expect(same && stopped, || "is not where a run leads".to_string())?;
    Ok([format!("run {count} {steps} {end}"), "same".to_string()])
}

/// A list gives and leaves what is said of it by hand.
fn check(list: &List, begun: &Loaded, made: &Made, short: bool) -> Result<(), String> {
    let gives = if short {
        SHORT.to_string()
    } else {
        made.items()
    };
    let said = list.gives.as_ref().is_none_or(|said| *said == gives);
    expect(said, || format!("gives {gives}"))?;
    if let Some(left) = &list.leaves {
        let State {
            pc, depth, count, ..
        } = made.state;
        let mut slots = begun.slots.clone();
        left.slots
            .iter()
            .for_each(|&(place, word)| slots[place] = word);
        let stands = left.stands == Begin { pc, depth, count };
        expect(stands && slots == made.slots, || {
            let slots = listed("slots", &made.slots, |word| format!("{word:X}"));
            format!("leaves {pc} {depth} {count} {slots}")
        })?;
    }
    let entries = LOGS.iter().find(|(name, _)| *name == list.name);
    for (place, entry) in made
        .log
        .chunks(ENTRY)
        .zip(entries.map_or(&[][..], |entries| entries.1))
    {
        let mut words = [0; ENTRY];
        words[..entry.len()].copy_from_slice(entry);
        expect(*place == words, || format!("logs {place:X?}"))?;
    }
    Ok(())
}

/// What the last line counts.
#[derive(Default)]
struct Totals {
    lists: usize,
    presses: usize,
    forwards: usize,
    backs: usize,
    refused: usize,
    outcomes: usize,
    /// The numbers met.
    numbers: BTreeSet<u32>,
    /// The ends met, by sheet.
    ends: Vec<(Vec<u8>, Answer)>,
}

impl Totals {
    fn add(&mut self, list: &List, made: &Made) {
        self.lists += 1;
        for (byte, answer) in list.presses.iter().zip(&made.answers) {
            self.presses += 1;
            self.numbers.insert(answer.number);
            let counted = match (answer.number, byte) {
                (0, 0) => &mut self.backs,
                (0, _) => &mut self.forwards,
                _ if answer.is_refusal() => &mut self.refused,
                _ => &mut self.outcomes,
            };
            *counted += 1;
            if answer.number != 0 {
                self.ends.push((list.sheet.clone(), *answer));
            }
        }
    }

    /// The line of the whole. Every number of a press is met but 1, which no load leaves to be met, and
    /// every method's end.
    fn line(&self, lists: &Lists) -> Result<String, String> {
        let numbers = [0].into_iter().chain(2..=14).chain([32]);
        let numbers = numbers.chain(101..=106).chain([110]);
        expect(self.numbers.iter().copied().eq(numbers), || {
            format!("only {:?} are met", self.numbers)
        })?;
        for method in lists.methods.good.iter().chain(&lists.methods.refused) {
            let met = self
                .ends
                .iter()
                .any(|(sheet, end)| *sheet == method.sheet && *end == method.end);
            expect(met || method.end == Answer::STOPPED, || {
                format!("no list meets the end of {}", method.name)
            })?;
        }
        let Totals {
            lists,
            presses,
            forwards,
            backs,
            refused,
            outcomes,
            ..
        } = self;
        Ok(format!("lists {lists} presses {presses} forwards {forwards} backs {backs} refused {refused} outcomes {outcomes}"))
    }
}
