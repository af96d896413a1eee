//! Sheets that are cut at every byte, and sheets with one byte changed.

use super::records::{sheet, HANDLED, PRINTED, RICH, TYPED};
use super::{Samples, GOOD};

/// Where the records of the whole sheets begin.
const PRINTED_STARTS: [usize; 3] = [0, 8, 16];
const RICH_STARTS: [usize; 8] = [0, 8, 19, 30, 41, 56, 71, 82];
const TYPED_STARTS: [usize; 5] = [0, 8, 22, 33, 44];
const HANDLED_STARTS: [usize; 7] = [0, 8, 17, 28, 39, 51, 63];

/// The byte is the same.
const SAME: u32 = u32::MAX;

/// A byte's place, and what the sheet gives with its lowest bit flipped, with 0 and with 255.
type Change = (usize, [u32; 3]);

/// Bytes of the rich sheet. Both bytes of each mark give 22.
#[rustfmt::skip]
const RICH_CHANGES: [Change; 45] = [
    (2, [21, SAME, 21]), (3, [24, 24, 21]), (4, [26, SAME, 26]), (5, [GOOD, GOOD, 26]), (6, [26, SAME, 26]), (7, [GOOD, 27, 26]),
    (10, [21, SAME, 21]), (11, [21, 24, 21]), (12, [GOOD; 3]), (18, [GOOD; 3]),
    (21, [21, SAME, 21]), (22, [24, 24, 21]), (23, [25, SAME, 25]), (24, [25; 3]), (25, [25; 3]), (26, [GOOD, SAME, GOOD]),
    (29, [GOOD; 3]),
    (32, [21, SAME, 21]), (33, [24, 24, 21]), (34, [25, SAME, 25]), (35, [25; 3]), (36, [25; 3]), (37, [GOOD, GOOD, SAME]),
    (43, [21, SAME, 21]), (44, [24, 24, 21]), (45, [25, SAME, 25]), (46, [25; 3]), (47, [25; 3]), (48, [GOOD; 3]),
    (55, [GOOD; 3]),
    (58, [21, SAME, 21]), (59, [24, 24, 21]), (60, [25, SAME, 25]), (61, [25; 3]), (62, [25; 3]), (63, [GOOD; 3]),
    (73, [21, SAME, 21]), (74, [24, 24, 21]), (75, [26, SAME, 26]), (76, [GOOD, 25, 26]), (77, [25; 3]),
    (84, [21, SAME, 21]), (85, [21, 22, 21]), (86, [GOOD, SAME, GOOD]), (97, [GOOD, SAME, GOOD]),
];

/// Bytes of the sheet with a descriptor.
#[rustfmt::skip]
const TYPED_CHANGES: [Change; 17] = [
    (3, [24, 24, 21]), (7, [GOOD, 27, 26]),
    (10, [21, SAME, 21]), (11, [31, 31, 21]), (12, [31; 3]), (13, [31; 3]), (14, [31; 3]), (15, [31; 3]), (16, [31; 3]), (17, [31; 3]),
    (18, [GOOD, 31, 31]), (19, [31; 3]), (20, [GOOD, 31, 31]), (21, [31; 3]),
    (46, [21, SAME, 21]), (47, [21, 31, 21]), (59, [GOOD; 3]),
];

/// Bytes of the sheet with handlers.
#[rustfmt::skip]
const HANDLED_CHANGES: [Change; 26] = [
    (10, [21, SAME, 21]), (11, [21, 24, 21]), (20, [24, 24, 21]), (23, [25; 3]), (24, [25, SAME, 25]), (27, [GOOD, GOOD, 25]),
    (31, [24, 24, 21]), (34, [25; 3]), (35, [25, SAME, 25]), (38, [GOOD, SAME, 25]),
    (41, [21, SAME, 21]), (42, [33, 33, 21]), (43, [33, SAME, 33]), (44, [GOOD, SAME, 33]), (45, [33, SAME, 33]), (46, [GOOD, 33, 33]),
    (47, [33, SAME, 33]), (48, [33, GOOD, 33]), (49, [33, SAME, 33]), (50, [33, GOOD, 33]),
    (54, [33, 33, 21]), (56, [GOOD, GOOD, 33]), (58, [GOOD, 33, 33]), (60, [GOOD, GOOD, 33]), (61, [33, SAME, 33]), (62, [GOOD, SAME, 33]),
];

/// Sheets cut at every byte, and sheets with a changed byte.
pub fn all(samples: &mut Samples) {
    cut(samples, "printed", PRINTED, &PRINTED_STARTS);
    cut(samples, "rich", RICH, &RICH_STARTS);
    changed(samples, "rich", RICH, &RICH_STARTS, &RICH_CHANGES);
    cut(samples, "typed", TYPED, &TYPED_STARTS);
    changed(samples, "typed", TYPED, &TYPED_STARTS, &TYPED_CHANGES);
    cut(samples, "handled", HANDLED, &HANDLED_STARTS);
    changed(
        samples,
        "handled",
        HANDLED,
        &HANDLED_STARTS,
        &HANDLED_CHANGES,
    );
}

/// A cut between two records leaves out `AR`, another one cuts a record.
fn cut(samples: &mut Samples, name: &str, text: &str, starts: &[usize]) {
    let whole = sheet(text).expect("a good sheet");
    for length in 0..whole.len() {
        let gives = if starts.contains(&length) { 23 } else { 21 };
        samples.add_sheet(
            format!("{name}_cut_at_{length}"),
            gives,
            whole[..length].to_vec(),
        );
    }
}

fn changed(samples: &mut Samples, name: &str, text: &str, starts: &[usize], changes: &[Change]) {
    let whole = sheet(text).expect("a good sheet");
    let marks = starts.iter().flat_map(|&start| [start, start + 1]);
    let marks = marks.map(|place| (place, [22; 3]));
    let mut changes: Vec<Change> = marks.chain(changes.iter().copied()).collect();
    changes.sort();
    for (place, answers) in changes {
        let byte = whole[place];
        for ((how, new), gives) in [("flipped", byte ^ 1), ("0", 0), ("255", 255)]
            .into_iter()
            .zip(answers)
        {
            assert_eq!(gives == SAME, new == byte, "byte {place}");
            if gives != SAME {
                let mut changed = whole.clone();
                changed[place] = new;
                samples
                    .add_sheet(format!("{name}_byte_{place}_{how}"), gives, changed)
                    .slots(10);
            }
        }
    }
}
