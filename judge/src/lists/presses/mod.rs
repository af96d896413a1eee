//! The samples of crates/press_lists, lists of forward and back presses.
//!
//! The samples stand one after another, with nothing between them. Numbers are big-endian. A sample is:
//!
//! ```text
//! bytes  0-39  the name in ASCII, padded with blanks
//!       40-43  how many slots are lent, at most 64
//!       44-47  how many kinds, and as many words of constants, at most 16
//!       48-51  how many log words, at most 1200
//!       52-55  how many presses, at most 1000
//!       56-59  how many answer words, at most 3008
//!       60-63  how many bytes the sheet has, at most 512
//!       64-67  pc: the list begins at the state that the load gives, with this pc, this depth and this count put in their places;
//!       68-71  depth; where it begins at the load itself, all three are 0
//!       72-79  count
//!       80-    the sheet, then the log's words, 4 bytes each, then the presses, a byte each: 0 is back, any other byte is forward
//! ```
//!
//! Before a load the lent memory holds junk: each kind is AB, each word DEADDEAD, each slot BEEFBEEF. Before the list each
//! answer word is FACEFACE.

pub mod answers;
pub mod from_load;
pub mod from_states;
pub mod methods;

use super::scatter::Scatter;
use methods::Pressed;
use std::collections::HashSet;

/// The state that a list begins at: what is put into the one that the load gives.
#[derive(Clone, Copy, Debug, Default, PartialEq, Eq)]
pub struct Begin {
    /// The offset.
    pub pc: u32,
    /// The depth.
    pub depth: u32,
    /// The count.
    pub count: u64,
}

impl Begin {
    /// The load itself.
    pub const LOAD: Begin = Begin {
        pc: 0,
        depth: 0,
        count: 0,
    };
}

/// What a list leaves: where it stands, and the slots that hold another word than the load left.
#[derive(Clone, Debug)]
pub struct Left {
    /// Where it stands.
    pub stands: Begin,
    /// Places and words.
    pub slots: Vec<(usize, u32)>,
}

/// A list of presses, what it is lent, and for those made by hand what it gives.
#[derive(Clone, Debug)]
pub struct List {
    name: String,
    sheet: Vec<u8>,
    slots: usize,
    pool: usize,
    log: Vec<u32>,
    presses: Vec<u8>,
    words: usize,
    begin: Begin,
    gives: Option<String>,
    leaves: Option<Left>,
}

/// What a list that is refused as a whole gives.
pub const SHORT: &str = "too few answer words";

/// Numbers at the limits of what an entry may have.
#[rustfmt::skip]
const DANGEROUS: [u32; 16] = [
    0, 1, 2, 5, 6, 7, 9, 10, 11, 255, 65536, 0x7FFF_FFFF, 0x8000_0000, 0xFFFF_FFFA, 0xFFFF_FFF6, 0xFFFF_FFFF,
];

/// Log words that nobody wrote: half of them at the limits.
fn junk_log(name: &str, length: usize) -> Vec<u32> {
    let mut scatter = Scatter::of(&format!("{name} log"));
    let mut word = || match scatter.bits(1) {
        1 => DANGEROUS[scatter.bits(8) as usize % DANGEROUS.len()],
        _ => scatter.bits(32),
    };
    (0..length).map(|_| word()).collect()
}

impl List {
    /// A list on what a method is lent: a byte for each letter, 0 for b, and for f any other byte. It has
    /// three answer words for each press, and begins at the load.
    fn new(name: &str, method: &Pressed, text: &str, log: Vec<u32>) -> List {
        let mut scatter = Scatter::of(&format!("{name} presses"));
        let mut press = |letter| match letter {
            'b' => 0,
            _ => (scatter.bits(8) as u8).max(1),
        };
        List {
            name: name.to_string(),
            sheet: method.sheet.clone(),
            slots: method.slots,
            pool: method.pool,
            log,
            presses: text.chars().map(&mut press).collect(),
            words: 3 * text.len(),
            begin: Begin::LOAD,
            gives: None,
            leaves: None,
        }
    }

    /// Whether the program has room for it.
    fn fits(&self) -> bool {
        let lent = self.slots <= 64 && self.pool <= 16 && self.log.len() <= 1200;
        let list = self.presses.len() <= 1000 && self.words <= 3008 && self.sheet.len() <= 512;
        lent && list && self.name.len() <= 40
    }

    /// Its bytes in the file.
    fn bytes(&self) -> Vec<u8> {
        let lengths = [
            self.slots,
            self.pool,
            self.log.len(),
            self.presses.len(),
            self.words,
            self.sheet.len(),
        ];
        let numbers = lengths.map(|length| length as u32).into_iter();
        let numbers = numbers.chain([self.begin.pc, self.begin.depth]);
        let mut bytes = format!("{:40}", self.name).into_bytes();
        bytes.extend(numbers.flat_map(u32::to_be_bytes));
        bytes.extend(self.begin.count.to_be_bytes());
        bytes.extend(&self.sheet);
        bytes.extend(self.log.iter().flat_map(|word| word.to_be_bytes()));
        bytes.extend(&self.presses);
        bytes
    }
}

/// The methods and the lists. No name is used twice, and every byte is used as a press.
pub struct Lists {
    methods: methods::Methods,
    lists: Vec<List>,
}

/// All lists, in their order in the files.
pub fn lists() -> Result<Lists, String> {
    let methods = methods::methods()?;
    let mut lists = from_load::lists(&methods);
    lists.extend(from_states::by_hand(&methods)?);
    lists.extend(from_states::any_walks(&methods));
    lists.extend(from_states::refused_sheets(&methods));
    let mut names = HashSet::new();
    if let Some(list) = lists
        .iter()
        .find(|list| !names.insert(&list.name) || !list.fits())
    {
        return Err(format!("{} is there twice, or too large", list.name));
    }
    let used: HashSet<u8> = lists
        .iter()
        .flat_map(|list| list.presses.iter().copied())
        .collect();
    if used.len() != 256 {
        return Err("not every byte is used as a press".to_string());
    }
    Ok(Lists { methods, lists })
}

/// The file of samples.
pub fn stdin(lists: &Lists) -> Vec<u8> {
    lists.lists.iter().flat_map(List::bytes).collect()
}
