//! Lists from other states than a load's, and lists on refused sheets.

use super::from_load::mix;
use super::methods::{Methods, Pressed};
use super::{junk_log, Begin, Left, List};
use crate::answers::Answer;
use crate::history::ENTRY;
use crate::lists::scatter::Scatter;
use crate::lists::text::{about, number, rows, Settings};
use bytecode::records;

/// The lists of lists/hand_presses.txt.
pub fn by_hand(methods: &Methods) -> Result<Vec<List>, String> {
    let file = include_str!("../../../lists/hand_presses.txt");
    let lists = rows(file).map(|row| read(&row, methods).map_err(about(row[0])));
    lists.collect()
}

const KEYWORDS: [&str; 7] = ["method", "pc", "depth", "count", "log", "length", "words"];

fn read(row: &[&str], methods: &Methods) -> Result<List, String> {
    let [name, said, text, gives, left] = row else {
        return Err("a list has five columns".to_string());
    };
    let said = Settings::read(said, &KEYWORDS)?;
    let method = methods.named(said.words("method").map_or("held", |words| words[0]));
    let entries = said.words("log").ok_or("the log is not said")?;
    let length = said.number("length")?.unwrap_or(ENTRY * entries.len());
    let log = log_of(name, entries, length)?;
    let list = List::new(name, method, text.trim_matches('-'), log);
    Ok(List {
        words: said.number("words")?.unwrap_or(list.words),
        begin: Begin {
            pc: said.number("pc")?.unwrap_or(0),
            depth: said.number("depth")?.unwrap_or(0),
            count: said.number("count")?.ok_or("the count is not said")?,
        },
        gives: Some(gives.to_string()),
        leaves: leaves(left)?,
        ..list
    })
}

/// A log of these entries, with junk for the words that an entry does not give and for those after the
/// entries.
fn log_of(name: &str, entries: &[&str], length: usize) -> Result<Vec<u32>, String> {
    let mut log = junk_log(name, length.max(ENTRY * entries.len()));
    for (place, entry) in log.chunks_mut(ENTRY).zip(entries) {
        for (word, given) in place.iter_mut().zip(entry.split(',')) {
            *word = number(given)?;
        }
    }
    log.truncate(length);
    Ok(log)
}

fn leaves(text: &str) -> Result<Option<Left>, String> {
    if text == "-" {
        return Ok(None);
    }
    let words: Vec<&str> = text.split(' ').collect();
    let [pc, depth, count, slots @ ..] = &words[..] else {
        return Err("a list leaves pc, depth and count".to_string());
    };
    let slot = |word: &&str| {
        let (place, word) = word.split_once('=').ok_or("a slot is PLACE=WORD")?;
        Ok((number(place)?, number(word)?))
    };
    let stands = Begin {
        pc: number(pc)?,
        depth: number(depth)?,
        count: number(count)?,
    };
    let slots = slots.iter().map(slot).collect::<Result<_, String>>()?;
    Ok(Some(Left { stands, slots }))
}

/// How many bytes of code, places of the stack and places in all the method held has.
const HELD: (u32, u32, u32) = (12, 6, 9);

/// An entry that back can restore on the method held.
fn any_entry(scatter: &mut Scatter) -> [u32; ENTRY] {
    let (code, max_stack, frame) = HELD;
    let many = scatter.bits(8) % 7;
    let mut entry = [0; ENTRY];
    entry[0] = scatter.bits(8) % code;
    entry[1] = scatter.bits(8) % (max_stack + 1);
    entry[2] = scatter.bits(8) % (frame - many + 1);
    entry[3] = many;
    entry[4..].fill_with(|| scatter.bits(32));
    entry
}

/// Long lists over logs of entries without a pattern.
pub fn any_walks(methods: &Methods) -> Vec<List> {
    let walks = [
        ("any entries", "waves", 500, 60),
        ("any entries mostly back", "mostly back", 400, 110),
        ("any entries even", "even", 300, 30),
    ];
    let list = |(name, kind, presses, entries): (&str, &str, usize, usize)| {
        let mut scatter = Scatter::of(name);
        let log = (0..entries).flat_map(|_| any_entry(&mut scatter)).collect();
        let begin = Begin {
            pc: 7,
            depth: 3,
            count: entries as u64 - 5,
        };
        let text = mix(name, kind, presses);
        List {
            begin,
            ..List::new(name, methods.named("held"), &text, log)
        }
    };
    walks.map(list).to_vec()
}

/// Lists on sheets that are refused.
pub fn refused_sheets(methods: &Methods) -> Vec<List> {
    let held = methods.named("held");
    let marked = [&held.sheet[..], &records::record(b"XX", &[])].concat();
    let (sizes, code) = (records::sizes(1, 1), records::record(b"CD", &[0xB1]));
    let with = |descriptor: Vec<u8>, words: &[u32]| {
        let arguments = records::arguments(words);
        [&sizes[..], &descriptor, &code, &arguments].concat()
    };
    let handler = records::handler([0, 1, 1, 0]);
    let handled = [&sizes[..], &code, &handler, &records::arguments(&[])].concat();
    let argued = with(vec![], &[1, 2]);
    let described = with(records::descriptor(b"(V)V"), &[1]);
    let counted = with(records::descriptor(b"()V"), &[1]);
    let list = |(name, number, sheet, slots): (&str, u32, Vec<u8>, usize)| {
        let method = Pressed {
            name: name.to_string(),
            end: Answer::refused(number),
            steps: 0,
            sheet,
            slots,
            pool: 2,
        };
        List {
            gives: Some(format!("sheet {number}")),
            ..List::new(name, &method, "fbf", junk_log(name, 20))
        }
    };
    let sheets = [
        ("sheet with an unknown mark", 22, marked, held.slots),
        ("sheet with too many arguments", 27, argued, 9),
        ("sheet with a bad descriptor", 31, described, 9),
        ("sheet with another number of words", 31, counted, 9),
        ("sheet with a handler outside", 33, handled, 9),
        (
            "sheet with one slot too few",
            26,
            held.sheet.clone(),
            HELD.2 as usize - 1,
        ),
        ("sheet without bytes", 23, vec![], 4),
    ];
    sheets.map(list).to_vec()
}
