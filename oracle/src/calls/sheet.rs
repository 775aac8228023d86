//! Rows and their groups of entries, as a call writes them; and the Rust's rows held against those of an answer.

use super::page::{refusal_of, same_end};
use super::value::same_value;
use super::{all, held, Given};
use crate::case::Answer;
use crate::rules::limits::{room, WORDS_IN_THE_RUST, WORDS_PER_ENTRY, WORDS_PER_ROW};
use crate::rules::value::read_entry;
use crate::rules::walk::End;
use given::record::{decode_serial_type, RecoveredRecord, SqlValue};
use given::varint::read_varint;
use given::EvidenceSource;

pub const SCANNED: u64 = 0;
pub const FREELIST: u64 = 1;
pub const INTRA_PAGE: u64 = 2;
pub const UNALLOCATED: u64 = 3;

const LOST: [u64; WORDS_PER_ENTRY] = [2, 0, 0, 0];
const UNUSED: [u64; WORDS_PER_ENTRY] = [3, 0, 0, 0];

/// A row, but for its columns.
pub struct Row {
    pub offset: u64,
    pub consumed: u64,
    pub id: Option<u64>,
    pub source: u64,
    pub percent: u64,
    pub confidence: f32,
    pub mode: u64,
    /// Whether a number of its header was padded.
    pub padded: bool,
}

impl Row {
    pub fn words(&self) -> [u64; WORDS_PER_ROW] {
        let (has_id, id) = (u64::from(self.id.is_some()), self.id.unwrap_or(0));
        let (confidence, padded) = (u64::from(self.confidence.to_bits()), u64::from(self.padded));
        [self.offset, self.consumed, has_id, id, self.source, self.percent, confidence, self.mode, padded]
    }
}

/// Rows and their groups of entries, while there is room for them.
pub struct Sheet {
    room: usize,
    width: usize,
    written: usize,
    rows: Vec<u64>,
    entries: Vec<u64>,
    /// Of rows of free space: whether each has a rebuilt header.
    pub rebuilt: Vec<bool>,
}

impl Sheet {
    pub fn new(rows: usize, entries: usize, width: usize) -> Sheet {
        let room = room(rows, entries, width.max(1));
        Sheet { room, width, written: 0, rows: Vec::new(), entries: Vec::new(), rebuilt: Vec::new() }
    }

    /// Writes a row and its entries; false where it finds no room.
    pub fn put(&mut self, row: &Row, entries: &[u64]) -> bool {
        if self.written == self.room {
            return false;
        }
        self.written += 1;
        self.rows.extend(row.words());
        self.entries.extend(entries);
        self.entries.extend(UNUSED.repeat(self.width - entries.len() / WORDS_PER_ENTRY));
        true
    }

    /// The answer of a call that is lent other lists before these two.
    pub fn answer(self, end: End, mut before: Vec<Vec<u64>>) -> Answer {
        before.extend([self.rows, self.entries]);
        Answer { number: refusal_of(end), out: vec![self.written as u64], lists: before, rebuilt: self.rebuilt }
    }
}

/// What the lists of an answer are held against.
pub struct Lent<'a> {
    pub bytes: &'a [u8],
    pub base: u64,
    pub room: usize,
    pub width: usize,
}

/// Where the types of a row stand. The Rust keeps none: they are read again with its own reader.
#[derive(Clone, Copy, Debug)]
pub enum Header {
    /// Behind a header length, up to it.
    Whole,
    /// As many bytes as there are columns, behind a length that was made up.
    Rebuilt,
    /// Behind a header length, up to it, and at most so many.
    UpTo(usize),
    /// From the row's start on, at most so many; bodies stand behind the last of them.
    Bare(usize),
    /// The same behind the four bytes of a link, with a column lost before them.
    Lost(usize),
}

/// A row of the Rust. Its table's name is the table's index, or empty where none is lent.
pub struct Said {
    pub record: RecoveredRecord,
    pub mode: u64,
    pub header: Header,
}

/// The Rust's rows against those of the answer.
pub fn same_rows(lent: &Lent, rust: &[Said], answer: &Answer) -> Given {
    let end = same_end(rust.len(), lent.room, answer);
    if end != Given::Agrees {
        return end;
    }
    let [.., rows, groups] = &answer.lists[..] else {
        return Given::Differs("two lists".into());
    };
    let groups = groups.chunks(WORDS_PER_ENTRY * lent.width.max(1));
    let pairs = rows.chunks(WORDS_PER_ROW).zip(groups);
    all(rust.iter().zip(pairs).map(|(said, (row, group))| same_row(lent, said, row, group)))
}

/// A row of an answer, in all that the Rust has of it.
pub fn same_words(rust: &Row, row: &[u64]) -> Given {
    held("row", &rust.words()[..WORDS_IN_THE_RUST], &row[..WORDS_IN_THE_RUST])
}

fn same_row(lent: &Lent, said: &Said, row: &[u64], group: &[u64]) -> Given {
    let rust = &said.record;
    let (source, percent) = match rust.source {
        EvidenceSource::Live => return Given::Differs("a live row".into()),
        EvidenceSource::Freelist => (FREELIST, 0),
        EvidenceSource::CarvedIntraPage { confidence_pct } => (INTRA_PAGE, u64::from(confidence_pct)),
        EvidenceSource::CarvedUnalloc { confidence_pct } => (UNALLOCATED, u64::from(confidence_pct)),
    };
    let id = rust.row_id.map(|id| id as u64);
    // The Rust does not say how long a row is: that is held against its bodies.
    let (consumed, confidence) = (row[1], rust.confidence);
    let mode = said.mode + 4 * rust.table.parse().unwrap_or(0);
    let expected = Row { offset: rust.offset, consumed, id, source, percent, confidence, mode, padded: false };
    let (used, unused) = group.split_at(WORDS_PER_ENTRY * rust.values.len().min(lent.width));
    let at = (rust.offset - lent.base) as usize;
    let Some(header) = reread(said, &lent.bytes[at..]) else {
        return Given::Differs("the Rust's reader sees no header where the Rust has a row".into());
    };
    // A lost column stands before those that have types.
    let lost = usize::from(matches!(said.header, Header::Lost(_)));
    let (before, used) = used.split_at(WORDS_PER_ENTRY * lost);
    all([
        same_words(&expected, row),
        held("a lost column", (&LOST[..WORDS_PER_ENTRY * lost], lost), (before, nulls(&rust.values[..lost]))),
        same_columns(lent.bytes, at, &header, &rust.values[lost..], consumed as usize, used),
        held("unused entries", &UNUSED.repeat(unused.len() / WORDS_PER_ENTRY)[..], unused),
    ])
}

fn nulls(values: &[SqlValue]) -> usize {
    values.iter().filter(|value| **value == SqlValue::Null).count()
}

/// Where the bodies of a row begin, counted from its start, and its types.
pub type Reread = (usize, Vec<u64>);

fn reread(said: &Said, part: &[u8]) -> Option<Reread> {
    match said.header {
        Header::Whole => header(part, usize::MAX),
        Header::Rebuilt => {
            let columns = said.record.values.len();
            Some((columns, kinds(part, 0, columns, usize::MAX)?.1))
        }
        Header::UpTo(most) => header(part, most),
        Header::Bare(most) => kinds(part, 0, part.len(), most),
        Header::Lost(most) => kinds(part, 4, part.len(), most),
    }
}

/// A header's length and types, by the Rust's varints.
pub fn header(part: &[u8], most: usize) -> Option<Reread> {
    let (header, width) = read_varint(part, 0)?;
    Some((header as usize, kinds(part, width, header as usize, most)?.1))
}

/// Where the last type ends, and all of them.
fn kinds(part: &[u8], from: usize, until: usize, most: usize) -> Option<Reread> {
    let mut kinds = Vec::new();
    let mut at = from;
    while at < until && kinds.len() < most {
        let (kind, width) = read_varint(part, at)?;
        kinds.push(kind);
        at += width;
    }
    Some((at, kinds))
}

/// The entries of a row that begins at `at`, against the Rust's values and the types that its reader sees there.
pub fn same_columns(
    bytes: &[u8],
    at: usize,
    header: &Reread,
    values: &[SqlValue],
    consumed: usize,
    group: &[u64],
) -> Given {
    let mut start = at + header.0;
    for ((entry, value), &kind) in group.chunks(WORDS_PER_ENTRY).zip(values).zip(&header.1) {
        let taken = decode_serial_type(kind, bytes, start).map(|v| v.1);
        let expected = taken.map_or([1, kind, 0, 0], |taken| [0, kind, start as u64, taken as u64]);
        let read = read_entry([entry[0], entry[1], entry[2], entry[3]], bytes).unwrap_or_default();
        let same = all([held("entry", &expected[..], entry), same_value(value, &read, bytes)]);
        if same != Given::Agrees {
            return same;
        }
        start += taken.unwrap_or(0);
    }
    let count = (values.len(), header.1.len());
    all([
        held("columns", count, (group.len() / WORDS_PER_ENTRY, values.len())),
        held("end of the bodies", consumed, start - at),
    ])
}
