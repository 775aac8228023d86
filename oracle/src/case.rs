//! A case: one call with all that is lent to it; and an answer: all that a call leaves.

use crate::rules::limits::{WORDS_PER_ENTRY, WORDS_PER_ROW};

/// What one call is given. The numbers, slices and lists stand in the order of the C interface.
#[derive(Clone, Debug, Default, PartialEq, Eq)]
pub struct Case {
    pub call: u8,
    pub numbers: Vec<u64>,
    pub slices: Vec<Vec<u8>>,
    /// Slices of words.
    pub words: Vec<Vec<u64>>,
    /// How many cells each lent list has.
    pub lists: Vec<usize>,
}

/// What one call leaves: its number, the words of `out`, and the cells that it wrote at the front of each lent list.
/// The cells behind them keep the pattern.
#[derive(Clone, Debug, Default)]
pub struct Answer {
    pub number: u64,
    pub out: Vec<u64>,
    pub lists: Vec<Vec<u64>>,
    /// Which rows of free space have a rebuilt header. The rules know; no word of a row says so.
    pub rebuilt: Vec<bool>,
}

/// Equal answers leave the same.
impl PartialEq for Answer {
    fn eq(&self, other: &Answer) -> bool {
        (self.number, &self.out, &self.lists) == (other.number, &other.out, &other.lists)
    }
}

/// What a lent list holds before a call, so that an untouched cell is known from a written one.
pub fn word_pattern(i: usize) -> u64 {
    0x5EED_0000_0000_0000 + i as u64
}

/// The same for lists of bytes; no hint code is that high.
pub fn byte_pattern(i: usize) -> u64 {
    200 + (i % 50) as u64
}

/// The same for page flags: none is clear, and some are set as a walk might set them.
pub fn flag_pattern(i: usize) -> u64 {
    1 + (i % 3) as u64
}

/// The cells of a lent list.
#[derive(Clone, Copy, Debug, PartialEq, Eq)]
pub enum Cell {
    Word,
    /// A word of a row.
    Row,
    /// A word of a column entry.
    Entry,
    Byte,
    Flag,
}

impl Cell {
    pub fn pattern(self, i: usize) -> u64 {
        match self {
            Cell::Flag => flag_pattern(i),
            _ => self.recorded_pattern(i),
        }
    }

    /// The same in the programs that print recorded cases, which have one pattern for all bytes.
    pub fn recorded_pattern(self, i: usize) -> u64 {
        if self.is_byte() {
            byte_pattern(i)
        } else {
            word_pattern(i)
        }
    }

    pub fn is_byte(self) -> bool {
        matches!(self, Cell::Byte | Cell::Flag)
    }

    /// How many of them belong together, where they do.
    pub fn group(self) -> Option<usize> {
        match self {
            Cell::Row => Some(WORDS_PER_ROW),
            Cell::Entry => Some(WORDS_PER_ENTRY),
            _ => None,
        }
    }

    /// What the server calls it.
    pub fn code(self) -> u8 {
        match self {
            Cell::Word | Cell::Row | Cell::Entry => 0,
            Cell::Byte => 1,
            Cell::Flag => 2,
        }
    }
}

/// A list that a call is lent: what it is called where it is printed, and its cells.
#[derive(Clone, Copy, Debug, PartialEq, Eq)]
pub struct List {
    pub label: &'static str,
    pub cell: Cell,
}

impl Case {
    pub fn new(call: u8, numbers: &[u64], slices: &[&[u8]], lists: &[usize]) -> Case {
        Case {
            call,
            numbers: numbers.to_vec(),
            slices: slices.iter().map(|s| s.to_vec()).collect(),
            words: Vec::new(),
            lists: lists.to_vec(),
        }
    }

    pub fn with_words(self, words: &[&[u64]]) -> Case {
        Case { words: words.iter().map(|w| w.to_vec()).collect(), ..self }
    }

    /// The case as the server has it: its counts, the numbers, the lengths, what the lists are, the bytes, the words.
    pub fn frame(&self, lists: &[List], to: &mut Vec<u8>) {
        let counts = [self.numbers.len(), self.slices.len(), self.words.len(), self.lists.len()];
        to.push(self.call);
        to.extend(counts.iter().map(|&n| n as u8));
        for n in &self.numbers {
            to.extend(n.to_le_bytes());
        }
        let slices = self.slices.iter().map(Vec::len).chain(self.words.iter().map(Vec::len));
        for length in slices.chain(self.lists.iter().copied()) {
            to.extend((length as u32).to_le_bytes());
        }
        to.extend(lists.iter().map(|list| list.cell.code()));
        for slice in &self.slices {
            to.extend(slice);
        }
        for word in self.words.iter().flatten() {
            to.extend(word.to_le_bytes());
        }
    }

    /// How much there is of it; cutting down goes on while this falls.
    pub fn size(&self) -> usize {
        let slices = self.slices.iter().map(Vec::len).chain(self.words.iter().map(Vec::len));
        slices.chain(self.lists.iter().copied()).sum()
    }
}

impl Answer {
    /// One of a call that rebuilds no header.
    pub fn new(number: u64, out: Vec<u64>, lists: Vec<Vec<u64>>) -> Answer {
        Answer { number, out, lists, rebuilt: Vec::new() }
    }

    /// A refusal that writes nothing.
    pub fn refused(number: u64, out: usize, lists: usize) -> Answer {
        Answer::new(number, vec![0; out], vec![Vec::new(); lists])
    }
}
