//! Slices of the largest size and one more.

use super::bytes::varint;
use super::databases::Database;
use super::gaps::{each_way, AsGaps};
use super::limits::refusals;
use super::regions::{attempt, lists, scan};
use super::statements::put;
use super::{chains, tables};
use crate::calls::{BLOCK, GAPS, GAP_PAGE, GAP_SLICE, LEARN, MODES, UNALLOC};
use crate::calls::{LEAVES, PAGE_DATA, RECOVER, RECOVER_PAGE, RECOVER_SLICE, SCAN, SEARCH};
use crate::case::Case;
use crate::random::Random;
use crate::runner::Sink;

const LARGEST: usize = 16_777_216;
const STATEMENT_MOST: usize = 65_536;

pub fn all(sink: &mut dyn Sink, random: &mut Random, long: bool) {
    for length in LARGEST - 1..=LARGEST + 1 {
        regions(sink, length);
        haystacks(sink, length);
    }
    refusals_of_size(sink);
    for length in STATEMENT_MOST - 1..=STATEMENT_MOST + 1 {
        statements(sink, length);
    }
    if long {
        refusals(sink, &vec![0; LARGEST + 1]);
        scan(sink, &random.bytes(LARGEST), &[0, 2, 1], 3000);
    } else {
        scan(sink, &random.bytes(LARGEST / 64), &[0, 2, 1], 300);
    }
}

/// A row at either end and nothing between.
pub fn regions(sink: &mut dyn Sink, length: usize) {
    let row = [3, 1, 0x17, 0x2A, 0x68, 0x69, 0x70, 0x69, 0x6B];
    let mut region = vec![0; length];
    region[..9].copy_from_slice(&row);
    region[length - 9..].copy_from_slice(&row);
    scan(sink, &region, &[0, 2], 3);
    attempt(sink, &region, &[0, 2], length as u64 - 9);
    let near_the_end = length as u64 - 20;
    sink.put(Case::new(SCAN, &[1 << 48, near_the_end], &[&region, &[0, 2]], &lists(1, 2)));
}

fn haystacks(sink: &mut dyn Sink, length: usize) {
    let mut haystack = vec![0; length];
    haystack[0] = 7;
    haystack[length - 1] = 7;
    for pattern in [&[7][..], &[0, 7], &[]] {
        sink.put(Case::new(SEARCH, &[], &[&haystack, pattern], &[2]));
    }
    if length > LARGEST {
        // Found more often than there is room, which is not even looked at.
        sink.put(Case::new(SEARCH, &[], &[&haystack, &[0]], &[2]));
    }
    // A pattern is no region: it may be of any length, and then stands nowhere.
    sink.put(Case::new(SEARCH, &[], &[&[7, 0], &haystack], &[2]));
}

/// Refusal 3 with each that comes before it and each that comes behind.
fn refusals_of_size(sink: &mut dyn Sink) {
    let region = vec![2; LARGEST + 1];
    for (hints, base) in [(&[][..], 0), (&[0; 511], 1 << 60), (&[9], 0), (&[0, 6], 1 << 60), (&[0], 1 << 60), (&[0], 0)]
    {
        sink.put(Case::new(SCAN, &[base, 0], &[&region, hints], &[0, 0]));
    }
    attempt(sink, &region, &[6], 0);
    attempt(sink, &region, &[5], 0);
}

pub fn databases(sink: &mut dyn Sink, long: bool) {
    for length in LARGEST - 1..=LARGEST + 1 {
        database(sink, 65_536, length);
        slices(sink, length);
    }
    database(sink, 512, LARGEST);
    let db = Database { size: 512, bytes: vec![0; LARGEST + 1] };
    refusals_of_length(sink, &db.bytes);
    if long {
        chains::refusals(sink, &db.bytes);
        tables::refusals(sink, &db);
    }
}

/// The last whole page is a leaf with a row, and page 1 leads to it and to as many others as it can.
pub fn database(sink: &mut dyn Sink, size: usize, length: usize) {
    let pages = length / size;
    let mut db = Database::new(size, pages);
    db.leaf(pages, &[vec![2, 8]]);
    let children: Vec<u32> = (2..=pages as u32).collect();
    db.interior(1, pages as u32, &children);
    db.bytes.resize(length, 0xFF);
    let (bytes, size, last) = (&db.bytes, size as u64, pages as u64);
    for page in [last, last + 1] {
        sink.put(Case::new(PAGE_DATA, &[size, page], &[bytes], &[]));
    }
    sink.put(Case::new(RECOVER_PAGE, &[size, last], &[bytes, &[0]], &lists(1, 1)));
    for flags in [pages - 1, pages] {
        sink.put(Case::new(LEAVES, &[size, 1], &[bytes], &[flags, pages, 2]));
        let lent = Case::new(RECOVER, &[size], &[bytes, &[0, 0, 0]], &[flags, pages, 16, 16]);
        sink.put(lent.with_words(&[&[1, last], &[1, 2]]));
    }
}

/// Refusal 3 of each call on pages, with each that comes before it and each that comes behind.
fn refusals_of_length(sink: &mut dyn Sink, bytes: &[u8]) {
    for size in [512, 0] {
        sink.put(Case::new(PAGE_DATA, &[size, 0], &[bytes], &[]));
        sink.put(Case::new(LEAVES, &[size, 1], &[bytes], &[0, 0, 0]));
        sink.put(Case::new(RECOVER, &[size], &[bytes, &[]], &[0, 0, 0, 0]).with_words(&[&[], &[]]));
    }
    for hints in [&[][..], &[6], &[0]] {
        sink.put(Case::new(RECOVER_PAGE, &[0, 0], &[bytes, hints], &[0, 0]));
        sink.put(Case::new(RECOVER_SLICE, &[0, 1 << 60], &[bytes, hints], &[0, 0]));
        let lent = Case::new(RECOVER, &[0], &[bytes, hints], &[0, 0, 0, 0]);
        sink.put(lent.with_words(&[&[1], &[hints.len() as u64]]));
    }
}

/// A block at the last place that a link can name, on a slice of any length.
pub fn slices(sink: &mut dyn Sink, length: usize) {
    let mut page = vec![0; length];
    page[1..3].copy_from_slice(&[0xFF, 0xFF]);
    page[65_535..65_541].copy_from_slice(&[0, 8, 0, 6, 2, 8]);
    sink.put(Case::new(RECOVER_SLICE, &[0, 1 << 48], &[&page, &[0]], &lists(1, 1)));
    sink.put(Case::new(RECOVER_SLICE, &[length as u64 - 4, 0], &[&page, &[0]], &lists(1, 1)));
}

/// Pages and freed blocks of the largest size and one more; refusal 3 with each that comes before it and each behind.
pub fn gaps(sink: &mut dyn Sink) {
    for length in LARGEST - 1..=LARGEST + 1 {
        database(&mut AsGaps(sink), 65_536, length);
        slices(&mut AsGaps(sink), length);
    }
    freed(sink, LARGEST);
    freed(sink, LARGEST + 1);
    let bytes = vec![2; LARGEST + 1];
    for hints in [&[][..], &[6], &[0]] {
        for base in [0, 1 << 60] {
            each_way(sink, Case::new(BLOCK, &[base], &[&bytes, hints], &[0, 0]));
            each_way(sink, Case::new(GAP_SLICE, &[0, base], &[&bytes, hints], &[0, 0]));
        }
        each_way(sink, Case::new(GAP_PAGE, &[0, 0], &[&bytes, hints], &[0, 0]));
        let lent = Case::new(GAPS, &[0], &[&bytes, hints], &[0, 0, 0, 0]);
        each_way(sink, lent.with_words(&[&[1], &[hints.len() as u64]]));
    }
}

/// A freed block with a cell at either end, and between them nothing that is a text.
pub fn freed(sink: &mut dyn Sink, length: usize) {
    let mut payload = vec![1; length];
    payload[..5].copy_from_slice(&[3, 7, 2, 15, 9]);
    payload[length - 5..].copy_from_slice(&[3, 8, 2, 15, 9]);
    each_way(sink, Case::new(BLOCK, &[1 << 48], &[&payload, &[2]], &lists(8, 1)));
}

/// Blocks in three modes, bytes to learn from and regions to carve, of the largest size and one more.
pub fn carving(sink: &mut dyn Sink) {
    let types = vec![13; 2];
    for length in LARGEST - 1..=LARGEST + 1 {
        let text = 13 + 2 * (length as u64 - 6);
        let header = [vec![6, 8], varint(text, 4)].concat();
        let mut bytes = vec![b'a'; length];
        bytes[..6].copy_from_slice(&header);
        // The row takes just all bytes; without its first one, or with a text longer by one, its body does not fit.
        for block in [&bytes[..], &bytes[1..], &[&[6, 8][..], &varint(text + 2, 4), &bytes[6..]].concat()] {
            sink.put(Case::new(MODES, &[1 << 48, 2], &[block], &lists(2, 2)));
            sink.put(Case::new(UNALLOC, &[1 << 48], &[block], &lists(1, 2)).with_words(&[&types]));
        }
        let entries = [0, text, 6, length as u64 - 6];
        sink.put(Case::new(LEARN, &[1], &[&bytes], &[1]).with_words(&[&entries]));
        sink.put(Case::new(LEARN, &[1], &[&bytes[1..]], &[1]).with_words(&[&entries]));
    }
    let bytes = vec![2; LARGEST + 1];
    for base in [0, 1 << 60] {
        for columns in [0, 1, 511] {
            sink.put(Case::new(MODES, &[base, columns], &[&bytes], &[0, 0]));
            let types = vec![1; columns as usize];
            sink.put(Case::new(UNALLOC, &[base], &[&bytes], &[0, 0]).with_words(&[&types]));
        }
    }
    for width in [0, 1, 511] {
        for state in [0, 4] {
            sink.put(Case::new(LEARN, &[width], &[&bytes], &[0]).with_words(&[&[state, 1, 0, 1]]));
        }
    }
}

/// Long statements: with columns, with none, and without brackets.
fn statements(sink: &mut dyn Sink, length: usize) {
    let fill = |start: &str, end: &str| {
        let blanks = " ".repeat(length - start.len() - end.len());
        [start, &blanks, end].concat()
    };
    for text in [fill("(a INT,", "b TEXT)"), fill("(", ")"), fill("(", ""), fill("", "")] {
        for room in [0, 1, 2, 3] {
            put(sink, text.as_bytes(), room);
        }
    }
    let commas = format!("({})", ",".repeat(length - 2));
    put(sink, commas.as_bytes(), 3);
    let names = "a,".repeat((length - 2) / 2);
    put(sink, format!("({names})").as_bytes(), 200);
}
