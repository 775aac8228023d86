//! Padded numbers in every place of a header and around it, for each carver.

use super::bytes::{telling_numbers, varint, width};
use super::chains::{numbered, slice};
use super::databases::{leaf, put, Database};
use super::gaps::{each_way, AsGaps};
use super::rebuilding::bare;
use super::regions::{attempt, lists, scan};
use super::tables;
use crate::calls::{BLOCK, MODES, READ_VARINT, UNALLOC};
use crate::case::Case;
use crate::random::Random;
use crate::runner::Sink;

/// The types of an integer, a text and a 0, which takes no body; what suits them, and what they match.
const TYPES: [u64; 3] = [1, 15, 8];
const HINTS: [u8; 3] = [0, 2, 0];
const LEARNED: [u64; 4] = [9, 13, 1, 12];

/// How many bytes a number is written in that takes one.
const WIDTHS: [usize; 3] = [1, 2, 9];

pub fn all(sink: &mut dyn Sink, random: &mut Random, count: usize) {
    varints(sink);
    lengths(sink);
    types(sink);
    cells(sink);
    freed(sink);
    gaps(sink);
    first_mode(sink);
    learned(sink);
    made_up(sink);
    for _ in 0..count {
        random_record(sink, random);
    }
}

/// The first and the last number that take so many bytes, in each count of bytes that holds them.
pub fn varints(sink: &mut dyn Sink) {
    for wide in 1..=9 {
        let first = if wide == 1 { 0 } else { 1 << (7 * (wide - 1)) };
        let last = if wide == 9 { u64::MAX } else { (1 << (7 * wide)) - 1 };
        for value in [first, first + 1, last] {
            for bytes in (wide..=9).map(|wider| varint(value, wider)) {
                sink.put(Case::new(READ_VARINT, &[0], &[&bytes], &[]));
            }
        }
    }
}

/// A record with its header's length and its types in so many bytes each. Where it says so the header ends in the last type, behind
/// its first byte, and the bodies begin there.
fn record(length: usize, types: [usize; 3], cut: bool) -> Vec<u8> {
    let bytes: Vec<u8> = TYPES.iter().zip(types).flat_map(|(&kind, wide)| varint(kind, wide)).collect();
    let past = if cut { types[2] - 1 } else { 0 };
    let header = length + bytes.len() - past;
    let bodies = [0x2A, 0x61, 0, 0];
    [varint(header as u64, length), bytes, bodies.to_vec()].concat()
}

/// A header's length and each of its types in all widths, with a last type that ends the header and one that runs past it.
fn records() -> Vec<Vec<u8>> {
    let mut all = Vec::new();
    for length in WIDTHS {
        for [a, b, c] in all_widths() {
            all.push(record(length, [a, b, c], false));
            if c > 1 {
                all.push(record(length, [a, b, c], true));
            }
        }
    }
    all
}

fn all_widths() -> impl Iterator<Item = [usize; 3]> {
    WIDTHS.into_iter().flat_map(|a| WIDTHS.into_iter().flat_map(move |b| WIDTHS.map(|c| [a, b, c])))
}

/// Where the header's length is read: by the attempt and the scan.
pub fn lengths(sink: &mut dyn Sink) {
    for record in records() {
        scan(sink, &record, &HINTS, 2);
        attempt(sink, &record, &HINTS, 0);
    }
}

/// Types alone, behind no length, one that is lost, and a link: rebuilt headers, and the modes that have no length.
pub fn types(sink: &mut dyn Sink) {
    for widths in all_widths() {
        let types: Vec<(u64, usize)> = TYPES.into_iter().zip(widths).collect();
        let alone = [bare(&types), vec![0, 0]].concat();
        each_way(sink, Case::new(BLOCK, &[0], &[&alone, &HINTS], &lists(5, 3)));
        modes(sink, &alone);
        modes(sink, &[&[0; 4][..], &alone].concat());
    }
}

fn modes(sink: &mut dyn Sink, block: &[u8]) {
    for columns in 1..=4 {
        sink.put(Case::new(MODES, &[0, columns], &[block], &lists(3, columns as usize)));
    }
}

/// What stands before a cell's record is not of its header.
pub fn cells(sink: &mut dyn Sink) {
    for record in records() {
        for (length, id) in [(1, 1), (2, 1), (1, 2), (9, 9)] {
            let payload = [varint(record.len() as u64, length), varint(7, id), record.clone()].concat();
            each_way(sink, Case::new(BLOCK, &[0], &[&payload, &HINTS], &lists(8, 3)));
        }
    }
}

/// The first freed block of a page: of a slice, of a page by its number, and of the leaf of a table.
pub fn freed(sink: &mut dyn Sink) {
    for record in records() {
        let mut page = vec![0; 12 + record.len()];
        leaf(&mut page, 0, &[record.clone()]);
        slice(sink, &page, 0, &HINTS, 1);
        page.resize(512, 0);
        numbered(sink, &page, 0, &HINTS, 1);
        let mut db = Database::new(512, 1);
        db.leaf(1, &[record]);
        tables::put(sink, &db, &[(1, HINTS.to_vec())], 1, 1);
    }
}

/// The same by the gap's carver; and the gap of a slice.
pub fn gaps(sink: &mut dyn Sink) {
    for record in records() {
        let mut page = [vec![0; 8], record].concat();
        let end = page.len();
        put(&mut page, 5, end);
        slice(&mut AsGaps(sink), &page, 0, &HINTS, 1);
    }
    freed(&mut AsGaps(sink));
}

/// The first mode, which reads fewer types than there are, or as many, or has fewer.
pub fn first_mode(sink: &mut dyn Sink) {
    records().iter().for_each(|record| modes(sink, record));
}

/// The same with learned types.
pub fn learned(sink: &mut dyn Sink) {
    for record in records() {
        for most in 1..=LEARNED.len() {
            let case = Case::new(UNALLOC, &[0], &[&record], &lists(3, most));
            sink.put(case.with_words(&[&LEARNED[..most]]));
        }
    }
}

/// As many types of a byte as make a length of one byte or two.
pub fn made_up(sink: &mut dyn Sink) {
    for columns in [1, 125, 126, 127, 128, 510] {
        each_way(sink, Case::new(BLOCK, &[0], &[&vec![8; columns], &vec![0; columns]], &lists(1, columns)));
    }
}

/// A header of a few numbers, each in a few bytes more than it takes or not, in every carver that reads a header's length.
fn random_record(sink: &mut dyn Sink, random: &mut Random) {
    let columns = 1 + random.below(4);
    let numbers = telling_numbers();
    let types: Vec<(u64, usize)> = (0..columns)
        .map(|_| {
            let kind = if random.once_in(4) { random.pick(&numbers[..40]) } else { random.pick(&TYPES) };
            (kind, width(kind) + if random.once_in(4) { 1 + random.below(3) } else { 0 })
        })
        .collect();
    let own = if random.once_in(4) { 2 + random.below(8) } else { 1 };
    let mut record = [super::records::header(&types, own), vec![0; 70]].concat();
    if random.once_in(3) {
        // The header ends earlier, and so in a type, or between two.
        record[own - 1] = record[own - 1].saturating_sub(1 + random.below(2) as u8);
    }
    let hints: Vec<u8> = (0..columns).map(|_| random.pick(&[0, 2, 5])).collect();
    scan(sink, &record, &hints, 3);
    let length = record.len() as u64;
    let cell = [varint(length, 1 + random.below(3)), varint(random.any_width() >> 1, 9), record.clone()].concat();
    each_way(sink, Case::new(BLOCK, &[0], &[&cell, &hints], &lists(4, columns)));
    let mut page = vec![0; 12 + record.len()];
    leaf(&mut page, 0, &[record.clone()]);
    slice(sink, &page, 0, &hints, 1);
    modes(sink, &record);
    let learned: Vec<u64> = (0..columns).map(|_| random.pick(&LEARNED)).collect();
    sink.put(Case::new(UNALLOC, &[0], &[&record], &lists(3, columns)).with_words(&[&learned]));
}
