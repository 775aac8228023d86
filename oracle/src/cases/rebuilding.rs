//! Headers that are rebuilt: ways that there are not, columns and bytes of types up to the most and past it, types of every
//! width in every place, the longest rows, a cell's place, and wide tables.

use super::blocks::block;
use super::bytes::{varint, width};
use super::chains::{numbered, slice};
use super::databases::Database;
use super::gaps::{each_way, AsGaps, WIDE};
use super::limits::spread;
use super::records::{damage, header};
use super::regions::lists;
use super::tables;
use crate::calls::{BLOCK, GAPS, GAP_PAGE, GAP_SLICE};
use crate::case::Case;
use crate::random::Random;
use crate::rules::limits::{EXACT, NO_GUESSES};
use crate::rules::value::body_length;
use crate::runner::Sink;

pub fn all(sink: &mut dyn Sink, random: &mut Random, count: usize) {
    codes(sink);
    columns(sink);
    type_bytes(sink);
    widths(sink);
    notes(sink);
    long_rows(sink, &[4, 126]);
    long_rows(sink, &TWO_BYTES);
    at_cells(sink);
    pages(sink);
    walks(sink);
    for _ in 0..count {
        random_types(sink, random);
    }
}

/// Codes that name no way, and all that do, with each refusal that comes before that one and each behind.
pub fn codes(sink: &mut dyn Sink) {
    let mut db = Database::new(512, 1);
    db.leaf(1, &[vec![2, 8, 2, 9]]);
    let far = [255, 256, 257, 258, 1 << 32, (1 << 32) + 1, (1 << 32) + 2, 1 << 63, (1 << 63) + 1, u64::MAX];
    for code in (0..=4).chain(far) {
        for columns in [0, 1, 126, 127, 510, 511] {
            for hint in [0, 6] {
                let hints = vec![hint; columns];
                let room = lists(3, columns.max(1));
                for base in [0, (1 << 48) + 1] {
                    sink.put(Case::new(BLOCK, &[code, base], &[&[2, 8, 2, 9], &hints], &room));
                    sink.put(Case::new(GAP_SLICE, &[code, 100, base], &[&db.bytes, &hints], &room));
                }
                for (size, page) in [(512, 1), (512, 0), (0, 1)] {
                    sink.put(Case::new(GAP_PAGE, &[code, size, page], &[&db.bytes, &hints], &room));
                    let case = Case::new(GAPS, &[code, size], &[&db.bytes, &hints], &[1, 1, room[0], room[1]]);
                    sink.put(case.with_words(&[&[page], &[columns as u64]]));
                }
            }
        }
    }
}

/// As many types of a byte as there are columns, in blocks that end with their bodies, before and after.
pub fn columns(sink: &mut dyn Sink) {
    for columns in [1, 2, 3, 63, 64, 125, 126, 508, 511, 512].into_iter().chain(WIDE) {
        for (kind, body) in [(0, 0), (8, 0), (1, 1), (10, 0)] {
            let whole = columns * (1 + body);
            for length in whole - 1..whole + 3 {
                let mut payload = vec![kind; columns];
                payload.resize(length, 7);
                for hint in [0, 2] {
                    block(sink, &payload, &vec![hint; columns], 2);
                }
            }
        }
    }
}

/// Types in just so many bytes, around each number of them at which the header length changes or there is none; the wide
/// ones come first, or last.
pub fn type_bytes(sink: &mut dyn Sink) {
    let around = (1..=3).chain(124..=130).chain(254..=257).chain(507..=513);
    for bytes in around.chain([9, 10, 18, 519, 520, 600]) {
        for columns in [1, 2, 13, 14, 15, 56, 57, 58, 64, 125, 126].into_iter().chain(WIDE) {
            let Some(widths) = spread(columns, bytes) else {
                continue;
            };
            for widths in [widths.clone(), widths.into_iter().rev().collect()] {
                let types: Vec<u8> = widths.into_iter().flat_map(|wide| varint(9, wide)).collect();
                let behind = [&types[..], &[7, 7]].concat();
                for payload in [&types[..types.len() - 1], &types, &behind] {
                    block(sink, payload, &vec![0; columns], 2);
                }
                for other in [columns - 1, columns + 1] {
                    block(sink, &behind, &vec![5; other], 2);
                }
            }
        }
    }
}

/// A type of every width in each place of three, cut off at each byte, and with bodies that end with the block or do not.
pub fn widths(sink: &mut dyn Sink) {
    for wide in 1..=9 {
        for kind in [0, 1, 13, 127, 128, 1 << 20].into_iter().filter(|&kind| width(kind) <= wide) {
            for place in 0..3 {
                let mut types = [(1, 1), (13, 1), (2, 1)];
                types[place] = (kind, wide);
                let payload = bare(&types);
                for end in (0..=12).chain(payload.len() - 1..=payload.len() + 2).filter(|&end| end < 400) {
                    let mut payload = payload.clone();
                    payload.resize(end, 7);
                    block(sink, &payload, &[0, 5, 3], 6);
                    block(sink, &payload, &[4, 2, 4], 6);
                }
            }
        }
    }
}

/// The bodies of types, if they are not too long.
fn bodies(types: &[(u64, usize)]) -> Vec<u8> {
    let length: u64 = types.iter().filter_map(|&(kind, _)| body_length(kind)).sum();
    vec![7; length.min(70_000) as usize]
}

/// Types, each in so many bytes, and their bodies.
pub fn bare(types: &[(u64, usize)]) -> Vec<u8> {
    let bytes: Vec<u8> = types.iter().flat_map(|&(kind, wide)| varint(kind, wide)).collect();
    [bytes, bodies(types)].concat()
}

/// A reading with its note in each place, whose type takes one, two or three bytes; its first bytes are lost, or some more.
pub fn notes(sink: &mut dyn Sink) {
    for note in [0, 1, 56, 57, 58, 59, 200, 8_185, 8_186] {
        for place in 0..4 {
            let mut kinds = vec![1, 7, 8];
            kinds.insert(place, 13 + 2 * note);
            let types: Vec<(u64, usize)> = kinds.iter().map(|&kind| (kind, width(kind))).collect();
            let payload = bare(&types);
            let hints: Vec<u8> = kinds.iter().map(|&kind| if kind > 12 { 2 } else { 0 }).collect();
            for before in [&[][..], &[4], &[0, 5]] {
                let payload = [before, &payload].concat();
                block(sink, &payload, &hints, 4);
                block(sink, &payload[..payload.len() - 1], &hints, 4);
            }
        }
    }
}

/// Bytes of types for which the header length takes two.
pub const TWO_BYTES: [usize; 3] = [127, 128, 510];

/// The longest rows and those of a byte more, with types in so many bytes; blocks.rs has those of one byte for each type.
pub fn long_rows(sink: &mut dyn Sink, types: &[usize]) {
    const LONG: usize = 3;
    for &types in types {
        for total in 65_533..=65_536 {
            let columns = types - LONG + 1;
            let text = varint(13 + 2 * (total - types) as u64, LONG);
            let mut payload = [&vec![8; columns - 1][..], &text].concat();
            payload.resize(total, 0x80);
            for way in [NO_GUESSES, EXACT] {
                sink.put(Case::new(BLOCK, &[way, 0], &[&payload, &vec![2; columns]], &lists(total % 2, columns)));
            }
        }
    }
}

/// A cell whose record reads as types, too, with wide ones among them; its length is right, or makes it none.
pub fn at_cells(sink: &mut dyn Sink) {
    for types in [&[(1, 1)][..], &[(1, 2)], &[(8, 1), (131, 2)], &[(131, 2), (8, 1)], &[(1, 1), (13, 9), (1, 1)]] {
        let record = [header(types, 1), bodies(types)].concat();
        for length in [record.len() - 1, record.len(), record.len() + 2] {
            let cell = [&varint(length as u64, 2), &[7][..], &record, &[9; 3]].concat();
            for hints in [vec![5; types.len()], vec![0; types.len()], vec![5; types.len() + 1]] {
                block(sink, &cell, &hints, 12);
                block(sink, &[&cell[..], &cell].concat(), &hints, 24);
            }
        }
    }
}

/// Counts of columns up to the most of each way and past it, each with a leaf that has a row in its gap, one in a cell, and one
/// whose header length is lost; it is page 2, and page 1 leads to it.
fn leaves() -> impl Iterator<Item = (Vec<u8>, Database)> {
    const CONTENT: usize = 4096 - 3;
    [125, 126].into_iter().chain(WIDE).chain([511]).map(|columns| {
        let types = vec![(8, 1); columns];
        let whole = header(&types, 1);
        let cell = [&varint(whole.len() as u64, 2), &[7][..], &whole].concat();
        let mut db = Database::new(4096, 2);
        db.interior(1, 2, &[]);
        db.leaf(2, &[[&[0][..], &cell, &[0, 0]].concat(), bare(&types)]);
        let (page, _) = db.page(2);
        page[5..7].copy_from_slice(&(CONTENT as u16).to_be_bytes());
        page[CONTENT - whole.len()..CONTENT].copy_from_slice(&whole);
        (vec![0; columns], db)
    })
}

/// The leaf by itself and by its number.
pub fn pages(sink: &mut dyn Sink) {
    for (hints, mut db) in leaves() {
        let (page, header) = db.page(2);
        for rows in 0..2 {
            slice(&mut AsGaps(sink), page, header, &hints, rows);
            numbered(&mut AsGaps(sink), page, header, &hints, rows);
        }
    }
}

/// The leaf as one of two tables', where the other is narrow.
pub fn walks(sink: &mut dyn Sink) {
    for (hints, db) in leaves() {
        for narrow in [0, 2] {
            for rows in 0..2 {
                let lent = [(narrow, vec![5; 3]), (1, hints.clone())];
                tables::put(&mut AsGaps(sink), &db, &lent, 1, rows);
            }
        }
    }
}

/// Types in about as many bytes as a header may have, or as leave one for its length, in any order.
fn random_types(sink: &mut dyn Sink, random: &mut Random) {
    let bytes = match random.below(4) {
        0 => 120 + random.below(14),
        1 => 500 + random.below(24),
        _ => 1 + random.mostly_below(30, 3, 520),
    };
    let least = bytes.div_ceil(9);
    let fewer = if random.once_in(3) { random.below(bytes) } else { random.below(3) };
    let columns = bytes.saturating_sub(fewer).max(least);
    let mut widths = spread(columns, bytes).unwrap_or_default();
    for i in (1..widths.len()).rev() {
        widths.swap(i, random.below(i + 1));
    }
    let types: Vec<(u64, usize)> = widths
        .into_iter()
        .map(|wide| match random.below(6) {
            0 if wide > 1 => (129 + random.below(40) as u64, wide),
            1 => (random.pick(&[1, 2, 7, 13, 14, 15]), wide),
            2 if random.once_in(40) => (random.pick(&[10, 11, 127]), wide),
            _ => (random.pick(&[0, 8, 9, 12, 13]), wide),
        })
        .collect();
    let before = random.below(4);
    let mut payload = [random.bytes(before), bare(&types)].concat();
    if random.once_in(4) {
        damage(random, &mut payload);
    }
    let hints: Vec<u8> = (0..columns).map(|_| random.below(6) as u8).collect();
    let rows = random.below(4);
    let lent = lists(rows, columns);
    each_way(sink, Case::new(BLOCK, &[random.any_width() >> 16], &[&payload, &hints], &lent));
}
