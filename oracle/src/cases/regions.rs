//! Regions for the attempt and the scan: every short one, every short header, and random ones.

use super::bytes::{every, varint, TELLING, TYPES};
use super::records::{damage, hints, record, region};
use crate::calls::{ATTEMPT, SCAN};
use crate::case::Case;
use crate::random::Random;
use crate::rules::limits::{WORDS_PER_ENTRY, WORDS_PER_ROW};
use crate::runner::Sink;

/// Lists for so many rows.
pub fn lists(rows: usize, columns: usize) -> [usize; 2] {
    [WORDS_PER_ROW * rows, WORDS_PER_ENTRY * columns * rows]
}

pub fn scan(sink: &mut dyn Sink, region: &[u8], hints: &[u8], rows: usize) {
    let lists = lists(rows, hints.len());
    sink.put(Case::new(SCAN, &[0, 0], &[region, hints], &lists));
}

pub fn attempt(sink: &mut dyn Sink, region: &[u8], hints: &[u8], offset: u64) {
    let lists = lists(1, hints.len());
    sink.put(Case::new(ATTEMPT, &[0, offset], &[region, hints], &lists));
}

pub fn all(sink: &mut dyn Sink, random: &mut Random, count: usize) {
    every_short(sink);
    one_type(sink);
    two_types(sink);
    three_types(sink);
    bench_cases(sink);
    for i in 0..count {
        match i % 8 {
            0 | 1 => random_attempt(sink, random),
            2 => random_bytes(sink, random),
            3 => hostile(sink, random),
            _ => random_region(sink, random),
        }
    }
}

fn every_short(sink: &mut dyn Sink) {
    let lent: [&[u8]; 8] = [&[0], &[1], &[2], &[3], &[4], &[5], &[0, 5], &[5, 5, 5]];
    every(&TELLING, 3, |region| {
        for hints in lent {
            scan(sink, region, hints, 3);
        }
        for hints in &lent[4..7] {
            for offset in 0..=region.len() as u64 + 1 {
                attempt(sink, region, hints, offset);
            }
        }
    });
}

/// What stands behind a short header: enough bytes for every short body.
const TAIL: [u8; 26] = [
    0x80, 0x7F, 0xFF, 0x00, 0x41, 0xC3, 0xA9, 0x01, 0x02, 0x00, 0x03, 0x01, 0x17, 0x2A, 0x68, 0x69, 0x70, 0x69, 0x6B,
    0x00, 0x00, 0x02, 0x00, 0x80, 0x80, 0x00,
];

/// A header of these types whose length takes so many bytes, with a tail.
pub fn with_tail(types: &[u8], tail: usize, wide: usize) -> Vec<u8> {
    let mut region = varint((types.len() + wide) as u64, wide);
    region.extend(types);
    region.extend(&TAIL[..tail]);
    region
}

fn one_type(sink: &mut dyn Sink) {
    for kind in 0..=255 {
        for tail in 0..=12 {
            for hint in 0..6 {
                scan(sink, &with_tail(&[kind], tail, 1), &[hint], 4);
                attempt(sink, &with_tail(&[kind], tail, 2), &[hint], 0);
            }
        }
    }
}

fn two_types(sink: &mut dyn Sink) {
    for a in TYPES {
        for b in TYPES {
            for tail in [0, 1, 2, 4, 8, 16] {
                for pair in 0..36u8 {
                    let hints = [pair / 6, pair % 6];
                    scan(sink, &with_tail(&[a, b], tail, 1), &hints, 3);
                }
                attempt(sink, &with_tail(&[a, b], tail, 2), &[0, 2], 0);
            }
        }
    }
}

fn three_types(sink: &mut dyn Sink) {
    every(&TYPES, 3, |types| {
        if types.len() == 3 {
            for (tail, hints) in [(2, [0, 1, 2]), (8, [5, 4, 3]), (24, [2, 0, 0]), (26, [4, 3, 1])] {
                scan(sink, &with_tail(types, tail, 1), &hints, 2);
            }
            scan(sink, &with_tail(types, 9, 1), &[5, 5], 3);
            attempt(sink, &with_tail(types, 24, 1), &[5, 5, 5], 0);
        }
    });
}

/// The cases that the rules name.
pub fn bench_cases(sink: &mut dyn Sink) {
    let row = [3, 1, 0x17, 0x2A, 0x68, 0x69, 0x70, 0x69, 0x6B];
    scan(sink, &row, &[0, 2], 1);
    scan(sink, &row[..8], &[0, 2], 1);
    scan(sink, &[2, 0x80, 8], &[0], 1);
    for value in [0x2A, 0xAA] {
        let mut region = [&[5][..], &row].concat();
        region[4] = value;
        scan(sink, &region, &[0, 2], 1);
    }
}

fn random_attempt(sink: &mut dyn Sink, random: &mut Random) {
    let hints = hints(random);
    let mut bytes = super::records::junk(random);
    let offset = bytes.len();
    bytes.extend(record(random, &hints));
    for _ in 0..random.below(3) {
        damage(random, &mut bytes);
    }
    let offset = if random.once_in(5) { random.below(bytes.len() + 3) } else { offset };
    let base = random.any_width() >> 16;
    let room = lists(random.below(3), hints.len());
    sink.put(Case::new(ATTEMPT, &[base, offset as u64], &[&bytes, &hints], &room));
}

fn random_region(sink: &mut dyn Sink, random: &mut Random) {
    let hints = hints(random);
    let records = random.mostly_below(5, 30, 40);
    let region = region(random, &hints, records);
    let base = random.any_width() >> 16;
    // Mostly enough room, and lists whose ends are no ends of a row.
    let rows = if random.once_in(3) { random.below(records + 2) } else { records + 2 };
    let [r, c] = lists(rows, hints.len());
    let room = [r + random.below(WORDS_PER_ROW), c + random.below(4 * hints.len())];
    let start = if random.once_in(6) { random.below(region.len() + 4) } else { 0 };
    sink.put(Case::new(SCAN, &[base, start as u64], &[&region, &hints], &room));
}

/// Bytes at random: all kinds, or those that begin rows.
fn random_bytes(sink: &mut dyn Sink, random: &mut Random) {
    let length = random.mostly_below(80, 20, 1200);
    let mut region = random.bytes(length);
    match random.below(3) {
        0 => region.iter_mut().for_each(|b| *b = TYPES[*b as usize % TYPES.len()]),
        1 => region.iter_mut().for_each(|b| *b %= 20),
        _ => {}
    }
    let hints = hints(random);
    scan(sink, &region, &hints, 6);
}

/// Records whose types are varints of every width, with lengths up to the largest numbers.
fn hostile(sink: &mut dyn Sink, random: &mut Random) {
    let columns = 1 + random.below(4);
    let mut types = Vec::new();
    for _ in 0..columns {
        let kind = match random.below(5) {
            0 => (1 << 63) + random.below(40) as u64 - 20,
            1 => u64::MAX - random.below(40) as u64,
            2 => random.any_width(),
            _ => random.below(16) as u64,
        };
        let least = super::bytes::width(kind);
        types.push((kind, least + random.below(10 - least)));
    }
    let mut region = super::records::junk(random);
    region.extend(super::records::header(&types, 1 + random.below(9)));
    if random.once_in(3) {
        let byte = random.pick(&[0x80, 0xFF]);
        region.extend(vec![byte; random.below(12)]);
    }
    let more = random.below(24);
    region.extend(random.bytes(more));
    if random.once_in(3) {
        // A header length of any size.
        let value = random.any_width();
        let wide = super::bytes::width(value);
        region.splice(0..0, varint(value, wide + random.below(10 - wide)));
    }
    let hints: Vec<u8> = (0..columns).map(|_| random.below(6) as u8).collect();
    scan(sink, &region, &hints, 3);
}
