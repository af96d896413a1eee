//! The sheet of a method that is written as text.
//!
//! A source is in ASCII. A `#` begins a comment, up to the end of its line, and blanks before a line
//! mean nothing. A source has these lines:
//!
//! ```text
//! max_stack NUMBER
//! max_locals NUMBER
//! descriptor TEXT               at most once, as (IJ)B: the method descriptor, with no blank in it; the load says whether it is good
//! constant INDEX KIND VALUE     as many as there are, by rising index; a long or a double uses its index and the next one
//! constant INDEX class yes      a class that an ArithmeticException can be assigned to; with no instead of yes, one that it cannot
//! handler START END AT TYPE     as many as there are, in their order: from START to before END the handler AT takes what TYPE says
//! argument KIND VALUE           as many as there are, in order; a long or a double gives two words, its low word first
//! code                          the last of them: what follows is a listing
//! ```
//!
//! START, END and AT are labels of the listing, END also one after its last instruction, or offsets
//! in the code; TYPE is any, or the index of a class. KIND is int, long, float or double. VALUE is a
//! decimal number, of which a float or a double gets the nearest value; or it is the bits, an h and
//! then 8 or 16 hexadecimal digits. A sheet that these lines cannot give, as it is wrong in itself,
//! is given by its bytes and nothing else:
//!
//! ```text
//! bytes DIGITS                  as many lines as there are, in hexadecimal
//! ```

mod before_code;
#[cfg(test)]
mod tests;

use crate::assembler::{assemble_within, Labels};
use crate::error::{shown, Error};
use crate::records;
use crate::suggestion::question;
use crate::values::{self, Kind};
use before_code::{Before, FIRST_WORDS};

/// The most bytes that a record's body has, as its length has 16 bits.
const MOST: usize = 65_535;

/// The sheet that a source gives, or what is wrong in it.
pub fn sheet(source: &str) -> Result<Vec<u8>, Error> {
    all_ascii(source)?;
    let Some(first) = lines(source).find(|line| !line.text.is_empty()) else {
        let what = "the source has no line; a method has max_stack, max_locals and code";
        return Err(Error::of_whole(what));
    };
    if first.text.split_whitespace().next() == Some("bytes") {
        sheet_of_bytes(source)
    } else {
        sheet_of_method(source)
    }
}

fn all_ascii(source: &str) -> Result<(), Error> {
    if source.is_ascii() {
        return Ok(());
    }
    for (number, line) in (1..).zip(source.split('\n')) {
        if let Some(character) = line.chars().find(|c| !c.is_ascii()) {
            let what = format!("{character:?} is no ASCII character, and a source has no others");
            return Err(Error::new(number, what));
        }
    }
    Ok(())
}

/// A line without its comment and the blanks around it.
struct Line<'a> {
    number: usize,
    text: &'a str,
}

fn lines(source: &str) -> impl Iterator<Item = Line<'_>> {
    (1..).zip(source.split('\n')).map(|(number, line)| Line {
        number,
        text: line.split('#').next().unwrap_or("").trim(),
    })
}

fn sheet_of_bytes(source: &str) -> Result<Vec<u8>, Error> {
    let mut sheet = vec![];
    for line in lines(source).filter(|line| !line.text.is_empty()) {
        let mut words = line.text.split_whitespace();
        let bytes = match (words.next(), words.collect::<String>()) {
            (Some("bytes"), digits) if digits.is_empty() => {
                Err("bytes takes hexadecimal digits".to_string())
            }
            (Some("bytes"), digits) => values::bytes(&digits),
            _ => Err("a source that begins with bytes has no other lines".to_string()),
        };
        sheet.extend(bytes.map_err(|what| Error::new(line.number, what))?);
    }
    Ok(sheet)
}

fn sheet_of_method(source: &str) -> Result<Vec<u8>, Error> {
    let (mut before, mut lines, mut last) = (Before::default(), lines(source), 1);
    let code = loop {
        let Some(line) = lines.next() else {
            return Err(Error::new(
                last,
                "the source ends without a line that says code",
            ));
        };
        if line.text == "code" {
            break line.number;
        }
        if !line.text.is_empty() {
            last = line.number;
            let read = before.read(line.number, line.text);
            read.map_err(|what| Error::new(line.number, what))?;
        }
    };
    let sizes = before.sizes().map_err(|what| Error::new(code, what))?;
    let listing = listing(lines)?;
    let (bytes, labels) = assemble_within(&listing, code + 1, MOST)?;
    let handlers = before
        .handlers
        .iter()
        .map(|(line, words)| handler(*words, &labels).map_err(|what| Error::new(*line, what)));
    let descriptor = before.descriptor();
    Ok([
        records::sizes(sizes[0], sizes[1]),
        descriptor.map_or(vec![], |text| records::descriptor(text.as_bytes())),
        records::record(b"CD", &bytes),
        before.constants,
        handlers.collect::<Result<Vec<_>, _>>()?.concat(),
        records::arguments(&before.arguments),
    ]
    .concat())
}

/// The lines after the one that says code, without their comments.
fn listing<'a>(lines: impl Iterator<Item = Line<'a>>) -> Result<String, Error> {
    let mut listing = String::new();
    for line in lines {
        let word = line.text.split_whitespace().next().unwrap_or("");
        if FIRST_WORDS.contains(&word) {
            let what = match word {
                "code" => "a second line says code".to_string(),
                _ => format!("{word} stands before the line that says code"),
            };
            return Err(Error::new(line.number, what));
        }
        listing += line.text;
        listing.push('\n');
    }
    Ok(listing)
}

/// The record of a constant, from its index, its kind and its value.
pub fn constant(index: &str, kind: &str, value: &str) -> Result<Vec<u8>, String> {
    let index = number("constant", index)?;
    if kind == "class" {
        let word: u32 = match value {
            "yes" => 1,
            "no" => 0,
            _ => return Err(format!("class takes yes or no, not {}", shown(value))),
        };
        return Ok(records::constant(index, 7, &word.to_be_bytes()));
    }
    let kind = kind_of(kind, "int, long, float, double and class")?;
    let bits = kind.bits(value)?.to_be_bytes();
    let value = &bits[8 - 4 * kind.size()..];
    Ok(records::constant(index, kind.tag(), value))
}

/// The record of a handler, from its start, its end, where it is, and its catch type.
pub fn handler(words: [&str; 4], labels: &Labels) -> Result<Vec<u8>, String> {
    let [start, end, at, catch_type] = words;
    let offset = |word: &str| match labels.get(word) {
        // An offset above 16 bits is above every code that a sheet has.
        Some(offset) => u16::try_from(*offset).map_err(|_| format!("{word} is at {offset}")),
        None if word.bytes().all(|byte| byte.is_ascii_digit()) => number("handler", word),
        None => {
            let question = question(word, labels.keys().copied());
            Err(format!("there is no label {}{question}", shown(word)))
        }
    };
    let catch_type = match catch_type {
        "any" => Ok(0),
        index => index.parse(),
    };
    let catch_type = catch_type.map_err(|_| {
        let word = shown(words[3]);
        format!("a handler takes any or the index of a class, not {word}")
    });
    let fields = [offset(start)?, offset(end)?, offset(at)?, catch_type?];
    Ok(records::handler(fields))
}

fn kind_of(name: &str, kinds: &str) -> Result<Kind, String> {
    let kind = Kind::of_name(name);
    kind.ok_or_else(|| format!("there is no kind {}; there are {kinds}", shown(name)))
}

/// A number of 16 bits after a word.
fn number(name: &str, word: &str) -> Result<u16, String> {
    word.parse()
        .map_err(|_| format!("{name} takes 0 to 65535, not {}", shown(word)))
}
