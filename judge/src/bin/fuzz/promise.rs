//! What the boundary (include/workbook.h) lets a call write, and what it says of every granted call, without a look at any
//! instruction: this holds whatever the rules of the instructions are.

use super::lent::Element;
use super::memory::{Function, Lent, Memory};
use std::ops::Range;

type Kept = Result<(), String>;

fn check(yes: bool, what: &str) -> Kept {
    yes.then_some(()).ok_or_else(|| what.to_string())
}

fn is_return(number: u32) -> bool {
    (101..=106).contains(&number)
}

/// The places from the first that changed to the last.
fn changed<T: PartialEq>(before: &[T], after: &[T]) -> Range<usize> {
    let differs = |i: &usize| before[*i] != after[*i];
    let Some(first) = (0..before.len()).find(differs) else {
        return 0..0;
    };
    let last = (0..before.len()).rfind(differs).unwrap_or(first);
    first..last + 1
}

fn within(inner: &Range<usize>, outer: Range<usize>) -> bool {
    inner.is_empty() || (inner.start >= outer.start && inner.end <= outer.end)
}

/// Whether a call kept its promise.
pub fn kept(function: Function, before: &Memory, after: &Memory, number: u32) -> Kept {
    guards(before, after)?;
    only_read(function, before, after)?;
    let allowed = match function {
        Function::Load => matches!(number, 0 | 21..=27 | 31 | 33),
        Function::Step => matches!(number, 0..=11 | 32 | 101..=106 | 110),
        Function::Forward => matches!(number, 0..=12 | 32 | 101..=106 | 110),
        Function::Back => matches!(number, 0..=3 | 13 | 14),
        Function::Run => matches!(number, 1..=11 | 32 | 101..=106 | 110 | 120),
        Function::Presses => matches!(number, 0 | 1),
    };
    check(allowed, "the number is none of this function's")?;
    let answer = match function {
        Function::Back | Function::Presses => usize::MAX,
        _ => before.answer.len(),
    };
    if before.state.len() < 7 || answer < 4 {
        let refused = match function {
            Function::Load => number != 0,
            _ => number == 1,
        };
        check(refused, "too few words of state or answer were taken")?;
        return nothing(before, after);
    }
    match function {
        Function::Load => load(before, after, number),
        Function::Step | Function::Forward => one_step(function, before, after, number),
        Function::Back => back(before, after, number),
        Function::Run => run(before, after, number),
        Function::Presses => presses(before, after, number),
    }
}

fn guards(before: &Memory, after: &Memory) -> Kept {
    fn same<T: Element>(name: &str, before: &Lent<T>, after: &Lent<T>) -> Kept {
        if before.guards() == after.guards() {
            return Ok(());
        }
        Err(format!("a guard of {name} was written"))
    }
    same("sheet", &before.sheet, &after.sheet)?;
    same("kinds", &before.kinds, &after.kinds)?;
    same("words", &before.words, &after.words)?;
    same("handlers", &before.handlers, &after.handlers)?;
    same("slots", &before.slots, &after.slots)?;
    same("log", &before.log, &after.log)?;
    same("state", &before.state, &after.state)?;
    same("answer", &before.answer, &after.answer)?;
    same("presses", &before.presses, &after.presses)?;
    same("answers", &before.answers, &after.answers)
}

/// Parts that a function only reads, or is not lent.
fn only_read(function: Function, before: &Memory, after: &Memory) -> Kept {
    let loads = function == Function::Load;
    let logs = matches!(function, Function::Forward | Function::Presses);
    let answers = matches!(function, Function::Back | Function::Presses);
    check(before.sheet == after.sheet, "the sheet was written")?;
    check(before.presses == after.presses, "presses was written")?;
    check(
        before.handlers == after.handlers,
        "the handlers were written",
    )?;
    check(loads || before.kinds == after.kinds, "kinds was written")?;
    check(loads || before.words == after.words, "words was written")?;
    check(logs || before.log == after.log, "the log was written")?;
    check(
        !answers || before.answer == after.answer,
        "answer was written",
    )?;
    check(
        function == Function::Presses || before.answers == after.answers,
        "answers was written",
    )
}

fn nothing(before: &Memory, after: &Memory) -> Kept {
    check(before == after, "something was written")
}

/// A return has the kind of the state's return type, where that is one, and its int fits it.
fn suits(before: &Memory, number: u32, low: u32) -> Kept {
    let any = i32::MIN..=i32::MAX;
    let (own, ints) = match char::from_u32(before.state_word(6)) {
        Some('Z') => (101, 0..=1),
        Some('B') => (101, -128..=127),
        Some('C') => (101, 0..=65_535),
        Some('S') => (101, -32_768..=32_767),
        Some('I') => (101, any),
        Some('F') => (102, any),
        Some('L') => (103, any),
        Some('J') => (104, any),
        Some('D') => (105, any),
        Some('V') => (106, any),
        _ => return check(number != 32, "32 without a return type"),
    };
    let right = number == own && ints.contains(&(low as i32));
    check(!is_return(number) || right, "a return of another type")
}

/// A state that a granted call gives: the sizes and the return type stay, pc and depth fit them.
fn stands(before: &Memory, after: &Memory) -> Kept {
    let (old, new) = (before.state.part(), after.state.part());
    check(
        old[..2] == new[..2] && old[6..] == new[6..],
        "a size or the return type changed",
    )?;
    check((new[2] as usize) < before.code.len(), "pc is outside")?;
    check(new[3] <= new[0], "depth is above max_stack")?;
    let frame = before.frame();
    check(frame <= before.slots.len(), "too few slots were taken")?;
    let places = changed(before.slots.part(), after.slots.part());
    check(
        within(&places, 0..frame),
        "a slot past the frame was written",
    )
}

fn load(before: &Memory, after: &Memory, number: u32) -> Kept {
    if number != 0 {
        return nothing(before, after);
    }
    let state = after.state.part();
    check(state[2..6] == [0; 4], "the state does not begin at 0")?;
    let letter = char::from_u32(state[6]).is_some_and(|first| "\0BCDFIJLSVZ".contains(first));
    check(letter, "no return type")?;
    check(state[7..] == before.state.part()[7..], "state words 7 on")?;
    let answer = after.answer.part();
    check(
        answer[4..] == before.answer.part()[4..],
        "answer words 4 on",
    )?;
    let [code, handlers] = [0, 2].map(|word| {
        let start = answer[word] as usize;
        start..start + answer[word + 1] as usize
    });
    let length = before.sheet.len();
    check(
        !code.is_empty() && code.end <= length,
        "the code lies outside of the sheet",
    )?;
    check(
        code.end <= handlers.start && handlers.end <= length,
        "the handlers lie outside of the sheet, or before the end of the code",
    )?;
    check_handlers(&before.sheet.part()[handlers.start..], handlers.len())?;
    let frame = after.frame();
    check(frame <= before.slots.len(), "too few slots were taken")?;
    check(
        after.slots.part()[frame..] == before.slots.part()[frame..],
        "a slot past the frame was written",
    )
}

/// The part that a load gives, with the rest of the sheet: whole records, and the arguments after it.
fn check_handlers(rest: &[u8], length: usize) -> Kept {
    let (part, arguments) = rest.split_at(length);
    let records = part.chunks(12).all(|record| {
        let whole = record.len() == 12;
        whole && record.starts_with(b"EX\x00\x08")
    });
    check(records, "the handlers are no records of 12 bytes")?;
    check(
        arguments.starts_with(b"AR"),
        "no arguments after the handlers",
    )
}

fn one_step(function: Function, before: &Memory, after: &Memory, number: u32) -> Kept {
    let (old, new) = (before.answer.part(), after.answer.part());
    suits(before, number, new[0])?;
    if is_return(number) {
        check(old[2..] == new[2..], "answer words 2 on were written")?;
        check(matches!(number, 104 | 105) || new[1] == 0, "answer word 1")?;
        check(number != 106 || new[0] == 0, "answer word 0")?;
        let mut expected = before.clone();
        expected.answer.part_mut()[..2].copy_from_slice(&new[..2]);
        return nothing(&expected, after);
    }
    if number != 0 {
        return nothing(before, after);
    }
    check(old == new, "an ordinary step wrote answer words")?;
    stands(before, after)?;
    let places = changed(before.slots.part(), after.slots.part());
    check(places.len() <= 6, "more than six places were written")?;
    if function == Function::Step {
        return check(after.count() == 0, "count is not 0");
    }
    check(
        after.count().checked_sub(1) == Some(before.count()),
        "count did not rise by one",
    )?;
    logged(before, after, &places)
}

/// The entry of a granted forward that changed these places.
fn logged(before: &Memory, after: &Memory, places: &Range<usize>) -> Kept {
    let start = (before.count() as usize).saturating_mul(10);
    let words = changed(before.log.part(), after.log.part());
    let entry = start..start.saturating_add(10);
    check(
        within(&words, entry.clone()),
        "another log word was written",
    )?;
    let entry = after.log.part().get(entry);
    let entry = entry.ok_or("the log has no room for the entry")?;
    check(
        entry[..2] == before.state.part()[2..4],
        "the entry's pc or depth",
    )?;
    let (first, many) = (entry[2] as usize, entry[3] as usize);
    check(many <= 6 && (many > 0 || first == 0), "the entry's numbers")?;
    check(first + many <= before.frame(), "places past the frame")?;
    check(
        within(places, first..first + many),
        "a place that is not in the entry",
    )?;
    check(
        entry[4..4 + many] == before.slots.part()[first..first + many],
        "the entry's old words",
    )?;
    check(
        entry[4 + many..].iter().all(|word| *word == 0),
        "the entry's unused words",
    )
}

fn back(before: &Memory, after: &Memory, number: u32) -> Kept {
    if number != 0 {
        return nothing(before, after);
    }
    stands(before, after)?;
    let count = before.count();
    check(
        count > 0 && after.count() == count - 1,
        "count did not fall by one",
    )?;
    let start = (count as usize - 1).saturating_mul(10);
    let entry = before.log.part().get(start..start.saturating_add(10));
    let entry = entry.ok_or("an entry that is not there was taken")?;
    check(
        entry[..2] == after.state.part()[2..4],
        "pc or depth is not the entry's",
    )?;
    let (first, many) = (entry[2] as usize, entry[3] as usize);
    check(many <= 6, "more than six places were taken")?;
    let mut slots = before.slots.part().to_vec();
    if many > 0 {
        let places = slots.get_mut(first..first + many);
        let places = places.ok_or("places outside of the slots were taken")?;
        places.copy_from_slice(&entry[4..4 + many]);
    }
    check(
        slots == after.slots.part(),
        "slots are not the entry's words",
    )
}

fn run(before: &Memory, after: &Memory, number: u32) -> Kept {
    let (old, new) = (before.answer.part(), after.answer.part());
    check(old[4..] == new[4..], "answer words 4 on were written")?;
    let steps = u64::from(new[2]) | u64::from(new[3]) << 32;
    check(steps <= before.budget, "more steps than the budget")?;
    if number <= 3 {
        check(new[..4] == [0; 4], "the answer words are not 0")?;
        let mut expected = before.clone();
        expected.answer.part_mut()[..4].fill(0);
        return nothing(&expected, after);
    }
    if number == 120 {
        check(steps == before.budget, "the budget is not used up")?;
    } else {
        check(steps < before.budget, "an end that was not looked at")?;
    }
    check(
        is_return(number) || new[..2] == [0; 2],
        "a value without a return",
    )?;
    suits(before, number, new[0])?;
    check(after.count() == 0, "count is not 0")?;
    stands(before, after)
}

fn presses(before: &Memory, after: &Memory, number: u32) -> Kept {
    let (old, new) = (before.answers.part(), after.answers.part());
    let list = before.presses.part();
    let room = old.len() as u128 >= 3 * list.len() as u128;
    check((number == 0) == room, "the answers' room")?;
    if number != 0 {
        return nothing(before, after);
    }
    let (answered, past) = new.split_at(3 * list.len());
    check(past == &old[answered.len()..], "past the last answer")?;
    let (count, written, granted) = follow(list, answered, before.count())?;
    for answer in answered.chunks_exact(3) {
        suits(before, answer[0], answer[1])?;
    }
    let words = changed(before.log.part(), after.log.part());
    check(within(&words, written), "another log word was written")?;
    check(after.count() == count, "count is not what the answers say")?;
    if granted {
        return stands(before, after);
    }
    check(before.state == after.state, "a refused press wrote state")?;
    check(before.slots == after.slots, "a refused press wrote slots")
}

/// Follows a list by its answers: the count after it, the log words that granted forwards wrote, and
/// whether a press was granted.
fn follow(
    list: &[u8],
    answered: &[u32],
    mut count: u64,
) -> Result<(u64, Range<usize>, bool), String> {
    let (mut written, mut granted) = (0..0, false);
    for (&press, answer) in list.iter().zip(answered.chunks_exact(3)) {
        let allowed = match press {
            0 => matches!(answer[0], 0..=3 | 13 | 14),
            _ => matches!(answer[0], 0..=12 | 32 | 101..=106 | 110),
        };
        check(allowed, "an answer is none of its press's")?;
        check(
            is_return(answer[0]) || answer[1..] == [0; 2],
            "a value without a return",
        )?;
        if answer[0] != 0 {
            continue;
        }
        granted = true;
        if press == 0 {
            check(count > 0, "a back at the start")?;
            count -= 1;
        } else {
            let start = (count as usize).saturating_mul(10);
            let all = if written.is_empty() {
                start..start
            } else {
                written
            };
            written = all.start.min(start)..all.end.max(start.saturating_add(10));
            count = count.wrapping_add(1);
        }
    }
    Ok((count, written, granted))
}
