//! Names that are close to a wrong one.

/// A longer word is no name that was meant.
const LONGEST: usize = 40;

/// The name that is closest to a word, where one is close: one mistake for each three letters, one in
/// a word of two letters and none in one letter. Upper and lower case are the same here. Of names that
/// are equally close it is the first by alphabet.
#[must_use]
pub fn closest<'a>(word: &str, names: impl IntoIterator<Item = &'a str>) -> Option<&'a str> {
    if word.len() > LONGEST {
        return None;
    }
    let word = word.to_lowercase();
    let most = match word.chars().count() {
        0 | 1 => 0,
        count => (count / 3).max(1),
    };
    let names = names.into_iter().filter(|name| name.len() <= LONGEST);
    let close = names.map(|name| (distance(&word, &name.to_lowercase()), name));
    let (_, name) = close.filter(|(far, _)| *far <= most).min()?;
    Some(name)
}

/// The end of a sentence that asks for the closest name; nothing where none is close.
pub(crate) fn question<'a>(word: &str, names: impl IntoIterator<Item = &'a str>) -> String {
    match closest(word, names) {
        Some(name) => format!("; did you mean {name}?"),
        None => String::new(),
    }
}

/// How many letters have to be put in, left out or changed, or swapped with the next one.
fn distance(one: &str, other: &str) -> usize {
    let (one, other): (Vec<char>, Vec<char>) = (one.chars().collect(), other.chars().collect());
    // Each row is for a beginning of one, each column for a beginning of the other.
    let mut rows: Vec<Vec<usize>> = vec![(0..=other.len()).collect()];
    for i in 1..=one.len() {
        let mut row = vec![i];
        for j in 1..=other.len() {
            let changed = usize::from(one[i - 1] != other[j - 1]);
            let mut least = (rows[i - 1][j] + 1)
                .min(row[j - 1] + 1)
                .min(rows[i - 1][j - 1] + changed);
            if i > 1 && j > 1 && one[i - 1] == other[j - 2] && one[i - 2] == other[j - 1] {
                least = least.min(rows[i - 2][j - 2] + 1);
            }
            row.push(least);
        }
        rows.push(row);
    }
    rows[one.len()][other.len()]
}

#[cfg(test)]
mod tests {
    use super::*;

    #[test]
    fn mistakes_are_counted() {
        for (one, other, count) in [
            ("ireturn", "ireturn", 0),
            ("iretrun", "ireturn", 1),
            ("iad", "iadd", 1),
            ("iaddd", "iadd", 1),
            ("isud", "isub", 1),
            ("", "nop", 3),
            ("kitten", "sitting", 3),
        ] {
            assert_eq!(distance(one, other), count, "{one}");
            assert_eq!(distance(other, one), count, "{one}");
        }
    }

    #[test]
    fn the_closest_name_is_found() {
        let names = ["return", "ireturn", "iadd", "isub"];
        assert_eq!(closest("iretrun", names), Some("ireturn"));
        assert_eq!(closest("IADD", names), Some("iadd"));
        assert_eq!(closest("iad", names), Some("iadd"));
        assert_eq!(closest("id", names), None);
        assert_eq!(closest("b", ["a", "ab"]), None);
        assert_eq!(closest("B", ["a", "b"]), Some("b"));
        assert_eq!(closest("again", names), None);
        assert_eq!(closest(&"a".repeat(1 << 20), names), None);
        // Equally close.
        assert_eq!(closest("bat", ["cat", "bad"]), Some("bad"));
    }
}
