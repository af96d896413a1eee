//! The text files of judge/lists: rows of columns, and what listings.txt names.

use bytecode::assembler::{assemble, Labels};
use bytecode::source;
use bytecode::values::Kind;
use std::collections::HashMap;
use std::str::FromStr;
use std::sync::LazyLock;

/// The listings and the rows of words of listings.txt.
struct Names {
    listings: HashMap<&'static str, String>,
    rows: HashMap<&'static str, Vec<&'static str>>,
}

static NAMES: LazyLock<Names> = LazyLock::new(|| {
    let (mut listings, mut rows) = (HashMap::new(), HashMap::new());
    let mut lines = include_str!("../../lists/listings.txt").lines();
    while let Some(line) = lines.next() {
        let words: Vec<&str> = line.split_whitespace().collect();
        match words[..] {
            ["listing", name] => {
                let block = lines.by_ref().take_while(|line| !line.is_empty());
                listings.insert(name, block.collect::<Vec<_>>().join("\n"));
            }
            ["row", name, ref row @ ..] => drop(rows.insert(name, row.to_vec())),
            _ => {}
        }
    }
    Names { listings, rows }
});

/// The columns of the rows of a file. Comments, headings and empty lines are none.
pub fn rows(file: &str) -> impl Iterator<Item = Vec<&str>> {
    let lines = file
        .lines()
        .filter(|line| line.contains('|') && !line.starts_with('#'));
    lines.map(|line| line.split('|').map(str::trim).collect())
}

/// The text of a listing, with the listings that it names.
pub fn listing(text: &str) -> String {
    let part = |part: &str| match NAMES.listings.get(part.trim()) {
        Some(named) => listing(named),
        None => part.to_string(),
    };
    text.split_inclusive([';', '\n'])
        .flat_map(|item| {
            let end = item.len() - usize::from(item.ends_with([';', '\n']));
            [part(&item[..end]), item[end..].to_string()]
        })
        .collect()
}

/// The code of a listing.
pub fn code(text: &str) -> Result<Vec<u8>, String> {
    Ok(assemble(&listing(text))?)
}

/// The records of handlers, each START,END,HANDLER,TYPE as a source has them (bytecode/src/source.rs).
pub fn handlers(words: &[&str], labels: &Labels) -> Result<Vec<u8>, String> {
    let record = |word: &&str| {
        let fields: Vec<&str> = word.split(',').collect();
        let fields = fields.try_into();
        source::handler(fields.map_err(|_| "a handler has four fields")?, labels)
    };
    let records = words.iter().map(|word| record(word).map_err(about(word)));
    Ok(records.collect::<Result<Vec<_>, _>>()?.concat())
}

/// Words under the keywords before them.
pub struct Settings<'a>(HashMap<&'a str, Vec<&'a str>>);

impl<'a> Settings<'a> {
    /// Reads words, of which some are keywords. A name stands for its row, and `X*N` for as many X.
    pub fn read(text: &'a str, keywords: &[&str]) -> Result<Settings<'a>, String> {
        let (mut found, mut key) = (HashMap::new(), "");
        for word in text.split_whitespace() {
            if keywords.contains(&word) {
                key = word;
                found.insert(key, vec![]);
                continue;
            }
            let (one, times) = word.split_once('*').unwrap_or((word, "1"));
            let row = NAMES.rows.get(one).cloned().unwrap_or_else(|| vec![one]);
            let under = found
                .get_mut(key)
                .ok_or_else(|| format!("{word}: no such word"))?;
            for _ in 0..number::<usize>(times)? {
                under.extend(&row);
            }
        }
        Ok(Settings(found))
    }

    /// The words under a keyword, where it is there.
    pub fn words(&self, key: &str) -> Option<&[&'a str]> {
        self.0.get(key).map(Vec::as_slice)
    }

    /// The number under a keyword.
    pub fn number<T: FromStr>(&self, key: &str) -> Result<Option<T>, String> {
        match self.words(key) {
            None => Ok(None),
            Some([word]) => number(word).map(Some),
            Some(_) => Err(format!("{key} has one number")),
        }
    }

    /// The numbers under a keyword.
    pub fn numbers<T: FromStr>(&self, key: &str) -> Result<Option<Vec<T>>, String> {
        let words = self.words(key);
        words
            .map(|words| words.iter().map(|word| number(word)).collect())
            .transpose()
    }

    /// The values under a keyword as words of 32 bits; `junk` is none. None without the keyword.
    pub fn values(&self, key: &str) -> Result<Option<Vec<Option<u32>>>, String> {
        self.words(key).map(values).transpose()
    }
}

/// A number.
pub fn number<T: FromStr>(word: &str) -> Result<T, String> {
    word.parse()
        .map_err(|_| format!("{word} is no such number"))
}

/// The words of values: a kind and a value, or an int, or `junk`.
fn values(words: &[&str]) -> Result<Vec<Option<u32>>, String> {
    let (mut found, mut words) = (vec![], words.iter());
    while let Some(word) = words.next() {
        match (*word, Kind::of_name(word)) {
            ("junk", _) => found.push(None),
            (_, Some(kind)) => {
                let value = words.next().ok_or_else(|| format!("{word} has no value"))?;
                found.extend(kind.words(value)?.into_iter().map(Some));
            }
            (value, None) => found.extend(Kind::Int.words(value)?.into_iter().map(Some)),
        }
    }
    Ok(found)
}

/// Numbers as text with blanks between them, after a title; an empty list is `-`.
pub fn listed<T>(title: &str, numbers: &[T], form: impl Fn(&T) -> String) -> String {
    let shown: Vec<String> = numbers.iter().map(form).collect();
    let shown = if shown.is_empty() {
        "-".to_string()
    } else {
        shown.join(" ")
    };
    format!("{title} {shown}")
}

/// Lines as a file.
pub fn joined(lines: impl IntoIterator<Item = String>) -> Vec<u8> {
    let lines = lines.into_iter().map(|line| line + "\n");
    lines.collect::<String>().into_bytes()
}

/// What is wrong, with what it is about before it.
pub fn about(name: &str) -> impl Fn(String) -> String + '_ {
    move |what| format!("{name}: {what}")
}
