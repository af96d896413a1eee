//! The screen: the listing with a cursor, the locals, the operand stack and a message.

use super::course::Course;
use crate::key::format::placed;
use std::ops::Range;
use workbook_host::shown::Shown;
use workbook_host::{listing, mnemonics, ReturnType};

/// How many lines and columns there are.
#[derive(Clone, Copy, Debug, PartialEq, Eq)]
pub struct Size {
    /// The lines.
    pub rows: usize,
    /// The columns.
    pub columns: usize,
}

/// What every screen of a method has: its listing, and what it returns.
pub struct Screen {
    /// What is said behind the number of the step, where there is a descriptor.
    returns: String,
    /// The lines of the instructions, where one begins with its offset.
    listing: Vec<(Option<u32>, String)>,
}

/// A list of lines, of which the screen has a few. Only these are written, as there may be thousands.
struct Part<'a> {
    count: usize,
    /// The line that has to be seen.
    seen: usize,
    line: Box<dyn Fn(usize) -> String + 'a>,
}

impl Screen {
    /// Of a sheet that is loaded, and what its method returns.
    pub fn of(sheet: &[u8], return_type: ReturnType) -> Screen {
        let text = listing::listing_of_bytes(sheet);
        let lines = text
            .lines()
            .take_while(|line| !line.starts_with("max_stack"));
        let returns = match return_type {
            ReturnType::NONE => String::new(),
            known => format!(", returns {known}"),
        };
        Screen {
            returns,
            listing: lines.map(|line| (offset(line), line.to_string())).collect(),
        }
    }

    /// The lines of the screen, no more of them than there are rows where there are rows for one line
    /// of each part.
    pub fn lines(&self, course: &Course, message: &str, size: Size) -> Vec<String> {
        let message = wrapped(message, size.columns);
        let code = self.code(course);
        let locals = values(course.locals(), course.written_locals());
        let stack = values(course.stack(), course.written_stack()).reversed();

        // A line for the step and one for the heading of each of the two.
        let rows = size.rows.saturating_sub(3 + message.len());
        let places = |part: &Part, rows: usize| part.count.min(rows.max(1));
        let of_stack = places(&stack, rows / 4);
        let of_locals = places(&locals, (rows / 2).saturating_sub(of_stack));
        let of_code = places(&code, rows.saturating_sub(of_stack + of_locals));

        let mut lines = vec![format!("step {}{}", course.count(), self.returns)];
        lines.extend(code.window(of_code).1);
        lines.extend(locals.titled("locals", of_locals, "none"));
        lines.extend(stack.titled("operand stack, top first", of_stack, "empty"));
        let cut = |line: &String| line.chars().take(size.columns).collect();
        let mut lines: Vec<String> = lines.iter().map(cut).collect();
        lines.extend(message);
        // The message is at the end, and it is needed most.
        lines.split_off(lines.len().saturating_sub(size.rows))
    }

    /// The listing with the cursor. A jump may lead into the bytes of an instruction, to a line that
    /// the listing does not have.
    fn code<'a>(&'a self, course: &'a Course) -> Part<'a> {
        let (pc, lines) = (course.pc(), &self.listing);
        let found = lines
            .iter()
            .position(|(at, _)| at.is_some_and(|at| at >= pc));
        let seen = found.unwrap_or(lines.len());
        let missing = usize::from(lines.get(seen).is_none_or(|(at, _)| *at != Some(pc)));
        let line = move |number: usize| match number {
            _ if number < seen => format!("  {}", lines[number].1),
            _ if number > seen => format!("  {}", lines[number - missing].1),
            _ if missing > 0 => between(course),
            _ => format!("> {}", lines[seen].1),
        };
        Part {
            count: lines.len() + missing,
            seen,
            line: Box::new(line),
        }
    }
}

impl<'a> Part<'a> {
    /// The same lines from the last to the first.
    fn reversed(self) -> Part<'a> {
        let Part { count, seen, line } = self;
        Part {
            count,
            seen: count.saturating_sub(seen + 1),
            line: Box::new(move |number| line(count - 1 - number)),
        }
    }

    /// The lines around the one that has to be seen, and which they are.
    fn window(&self, rows: usize) -> (Range<usize>, Vec<String>) {
        let last_start = self.count.saturating_sub(rows);
        let start = self.seen.saturating_sub(rows / 2).min(last_start);
        let range = start..self.count.min(start + rows);
        (range.clone(), range.map(&self.line).collect())
    }

    /// A heading and the lines under it.
    fn titled(&self, title: &str, rows: usize, nothing: &str) -> Vec<String> {
        if self.count == 0 {
            return vec![format!("{title}: {nothing}")];
        }
        let (range, lines) = self.window(rows);
        let heading = if range.len() < self.count {
            let (from, to, all) = (range.start + 1, range.end, self.count);
            format!("{title} (lines {from} to {to} of {all}):")
        } else {
            format!("{title}:")
        };
        [heading].into_iter().chain(lines).collect()
    }
}

/// The offset with which a line of a listing begins. A line of a switch has its key further right.
fn offset(line: &str) -> Option<u32> {
    let (number, _) = line.split_once(':')?;
    if number.len() > 10 {
        return None;
    }
    number.trim_start().parse().ok()
}

/// The line of an instruction that begins inside of another one.
fn between(course: &Course) -> String {
    let pc = course.pc();
    format!("> {pc:>6}: {}", mnemonics::instruction(course.code(), pc))
}

/// A line for each value, with a star where the last step wrote it; the first of these is seen.
fn values(values: Vec<Shown>, written: Range<usize>) -> Part<'static> {
    let is_written = move |value: &Shown| {
        written.start < value.place + value.places() && value.place < written.end
    };
    let seen = values.iter().position(&is_written);
    Part {
        count: values.len(),
        seen: seen.unwrap_or(0),
        line: Box::new(move |number| {
            let value = &values[number];
            let mark = if is_written(value) { '*' } else { ' ' };
            format!("{mark} {}", placed(value))
        }),
    }
}

/// A message as lines of a width, broken between words. The spaces of a list stay.
fn wrapped(message: &str, columns: usize) -> Vec<String> {
    let mut lines = vec![];
    for text in message.lines() {
        let mut line = String::new();
        for word in text.split(' ') {
            let width = line.chars().count() + 1 + word.chars().count();
            if !line.is_empty() && width > columns {
                lines.push(line.trim_end().to_string());
                line = word.to_string();
            } else if line.is_empty() {
                line += word;
            } else {
                line = line + " " + word;
            }
        }
        lines.push(line);
    }
    lines
}

#[cfg(test)]
mod tests {
    use super::*;

    #[test]
    fn a_key_of_a_switch_is_no_offset() {
        assert_eq!(offset("     4: lookupswitch  { // 5"), Some(4));
        assert_eq!(offset("                    2: 56"), None);
        assert_eq!(offset("          -2147483648: 56"), None);
        assert_eq!(offset("              default: 62"), None);
        assert_eq!(offset("        }"), None);
    }

    #[test]
    fn a_message_is_broken_between_words() {
        assert_eq!(wrapped("one two three", 7), ["one two", "three"]);
        assert_eq!(wrapped("a  b\nc", 80), ["a  b", "c"]);
        assert_eq!(wrapped("longest", 3), ["longest"]);
    }

    #[test]
    fn what_has_to_be_seen_is_in_the_window() {
        for seen in 0..9 {
            for rows in 1..12 {
                let line = Box::new(|number: usize| number.to_string());
                let part = Part {
                    count: 9,
                    seen,
                    line,
                };
                let (range, shown) = part.window(rows);
                assert!(range.contains(&seen), "{seen} {rows}");
                assert_eq!(shown.len(), rows.min(9));
                assert!(part.reversed().window(rows).1.contains(&seen.to_string()));
            }
        }
    }
}
