//! Sheets that two questions refuse; the earlier one gives its number.

use super::records::{sheet, BEGINNINGS};
use super::Samples;
use crate::lists::text::{about, number, rows, Settings};

/// At each place, and then those of lists/sheets_refused_twice.txt.
pub fn all(samples: &mut Samples) -> Result<(), String> {
    for (place, beginning) in BEGINNINGS {
        for (name, gives, text) in [
            ("21_not_22", 21, "cut XX 9 10"),
            ("21_not_22_by_head", 21, "bytes 58 58 00"),
            ("22_not_24", 22, "empty XX 0"),
        ] {
            samples.add(
                format!("refused_{name}_{place}"),
                gives,
                &format!("{beginning}; {text}"),
            );
        }
    }
    for row in rows(include_str!("../../../lists/sheets_refused_twice.txt")) {
        read(samples, &row).map_err(about(row[0]))?;
    }
    Ok(())
}

fn read(samples: &mut Samples, row: &[&str]) -> Result<(), String> {
    let [name, gives, text, lent] = row else {
        return Err("a sheet has four columns".to_string());
    };
    let said = Settings::read(lent, &["slots", "pool", "words"])?;
    let sample = samples.add_sheet(*name, number(gives)?, sheet(text)?);
    sample.slots(said.number("slots")?.unwrap_or(12));
    sample.pool(said.number("pool")?.unwrap_or(12));
    if let Some(words) = said.number("words")? {
        sample.words(words);
    }
    Ok(())
}
