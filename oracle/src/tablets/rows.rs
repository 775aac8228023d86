//! Rows that were found, sorted by what they are.

use super::Way;
use crate::case::Answer;
use crate::rules::limits::{WORDS_PER_ENTRY, WORDS_PER_ROW};
use crate::rules::value::{self, read_entry};
use std::collections::HashSet;

const UNUSED: u64 = 3;
const OFFSET: usize = 0;
const CONSUMED: usize = 1;
const CONFIDENCE: usize = 6;
const MODE: usize = 7;
const PADDED: usize = 8;
const FIRST_COLUMN_MISSING: u64 = 3;
/// From this confidence on a row is kept, and in freed blocks, where it is times 0.6, from that on.
const KEPT: f32 = 0.85;
const KEPT_IN_FREED_BLOCKS: f32 = 0.51;

/// The hints that are lent, and how many of a row's last values stand in a line.
pub struct Lent {
    pub columns: usize,
    pub hints: Vec<u8>,
    /// Learned from rows that are there.
    pub types: Vec<u64>,
}

/// The rows of a table as sqlite3 prints them.
pub struct Lines {
    pub deleted: HashSet<String>,
    pub live: HashSet<String>,
}

#[derive(Clone)]
pub struct Row {
    /// As sqlite3 prints it, and where its bodies stand in the file; both without a key.
    line: String,
    places: Vec<u64>,
    confidence: f32,
    mode: u64,
    /// Where it starts and ends in the file.
    span: (u64, u64),
    /// How many values are not NULL.
    values: usize,
    padded: bool,
}

#[derive(Clone, Copy, Debug, Default, PartialEq, Eq)]
pub struct Counts {
    /// Deleted rows, each once.
    pub deleted: usize,
    pub live: usize,
    pub none: usize,
}

/// None where the call refused.
#[derive(Clone, Copy)]
pub struct Back {
    pub all: Option<Counts>,
    pub kept: Counts,
    /// Kept, and no piece of another row that is.
    pub apart: Counts,
    /// Of all, and of those that are kept, the padded ones.
    pub padded: Counts,
    pub padded_kept: Counts,
}

impl Lent {
    pub fn new(columns: usize, hints: Vec<u8>) -> Lent {
        Lent { columns, hints, types: Vec::new() }
    }
}

impl Back {
    pub fn of(lines: &Lines, rows: Option<&[Row]>, way: Way) -> Back {
        let all = rows.map(|rows| Counts::of(lines, rows.iter()));
        let kept: Vec<&Row> = rows.unwrap_or_default().iter().filter(|row| row.is_kept(way)).collect();
        let apart = kept.iter().copied().filter(|row| !kept.iter().any(|other| row.is_piece_of(other)));
        let padded = rows.unwrap_or_default().iter().filter(|row| row.padded);
        Back {
            all,
            kept: Counts::of(lines, kept.iter().copied()),
            apart: Counts::of(lines, apart),
            padded: Counts::of(lines, padded),
            padded_kept: Counts::of(lines, kept.iter().copied().filter(|row| row.padded)),
        }
    }
}

impl Counts {
    fn of<'a>(lines: &Lines, rows: impl Iterator<Item = &'a Row>) -> Counts {
        let mut counts = Counts::default();
        let mut seen = HashSet::new();
        for row in rows {
            if lines.deleted.contains(&row.line) {
                seen.insert(&row.line);
            } else if lines.live.contains(&row.line) {
                counts.live += 1;
            } else {
                counts.none += 1;
            }
        }
        Counts { deleted: seen.len(), ..counts }
    }

    pub fn add(&mut self, other: Counts) {
        self.deleted += other.deleted;
        self.live += other.live;
        self.none += other.none;
    }
}

impl Row {
    /// Of the three modes no row has so much confidence: there it is told apart which have their first column lost.
    fn is_kept(&self, way: Way) -> bool {
        match way {
            Way::Modes => self.mode == FIRST_COLUMN_MISSING,
            Way::Freed => self.confidence >= KEPT_IN_FREED_BLOCKS && self.values > 0,
            _ => self.confidence >= KEPT && self.values > 0,
        }
    }

    /// It shares bytes with a row that has more values.
    fn is_piece_of(&self, other: &Row) -> bool {
        self.span.0 < other.span.1 && other.span.0 < self.span.1 && self.values < other.values
    }
}

/// The rows of an answer on a slice that begins at a place of its file. Its last two lists have the rows, and a group of so
/// many entries for each.
pub fn of_answer(lent: &Lent, slice: &[u8], at: usize, answer: &Answer, width: usize) -> Vec<Row> {
    let Some([rows, entries]) = answer.lists.last_chunk() else { return Vec::new() };
    let groups = entries.chunks(WORDS_PER_ENTRY * width);
    rows.chunks(WORDS_PER_ROW).zip(groups).map(|(row, group)| one(lent, slice, at, row, group)).collect()
}

fn one(lent: &Lent, slice: &[u8], at: usize, row: &[u64], group: &[u64]) -> Row {
    let used: Vec<&[u64]> = group.chunks(WORDS_PER_ENTRY).filter(|entry| entry[0] != UNUSED).collect();
    let (tags, values): (Vec<u64>, Vec<String>) = used.iter().map(|entry| shown(slice, entry)).unzip();
    // A row's key, if it has a column for it, stands before the others.
    let key = used.len() - used.len().min(lent.columns);
    Row {
        line: values[key..].join("|"),
        places: used[key..].iter().map(|entry| at as u64 + entry[2]).collect(),
        confidence: f32::from_bits(row[CONFIDENCE] as u32),
        mode: row[MODE] % 4,
        span: (row[OFFSET], row[OFFSET] + row[CONSUMED]),
        values: tags.iter().filter(|&&tag| tag != value::NULL).count(),
        padded: row[PADDED] == 1,
    }
}

/// The tag of a value, and how sqlite3 prints it in a list.
fn shown(slice: &[u8], entry: &[u64]) -> (u64, String) {
    let v = read_entry([entry[0], entry[1], entry[2], entry[3]], slice).unwrap_or_default();
    let part = || &slice[v.start as usize..(v.start + v.length) as usize];
    let text = match v.tag {
        value::INTEGER => (v.bits as i64).to_string(),
        value::REAL => f64::from_bits(v.bits).to_string(),
        value::TEXT => String::from_utf8_lossy(part()).into_owned(),
        value::BLOB => format!("{:?}", part()),
        _ => String::new(),
    };
    (v.tag, text)
}

/// The rows of both, of those with the same values at the same places only the one with the most confidence.
pub fn each_once(one: &[Row], other: &[Row]) -> Vec<Row> {
    let mut rows: Vec<&Row> = one.iter().chain(other).collect();
    rows.sort_by(|a, b| b.confidence.total_cmp(&a.confidence));
    let mut seen = HashSet::new();
    rows.into_iter().filter(|row| seen.insert((&row.line, &row.places))).cloned().collect()
}
