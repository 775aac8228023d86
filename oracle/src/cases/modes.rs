//! Freed blocks in three modes: every short one, headers of all lengths, bodies that do not fit, and rows one behind the
//! other.

use super::bytes::{every, varint, TELLING, TYPES};
use super::gaps::{cell, few_hints};
use super::limits::{exact, long_row};
use super::records::{damage, junk, most_columns, record};
use super::regions::{lists, with_tail};
use crate::calls::MODES;
use crate::case::Case;
use crate::random::Random;
use crate::rules::carve::rows;
use crate::rules::limits::{Limits, WORDS_PER_ROW};
use crate::runner::Sink;

pub fn all(sink: &mut dyn Sink, random: &mut Random, count: usize) {
    short(sink);
    types(sink);
    header_lengths(sink);
    lost(sink);
    stacked(sink);
    long_rows(sink);
    bases(sink);
    refusals(sink, &[2, 8, 2, 9, 0]);
    for i in 0..count {
        match i % 256 {
            0 => rooms(sink, random),
            1..=48 => random_bytes(sink, random),
            49..=176 => random_link(sink, random),
            _ => random_stack(sink, random),
        }
    }
}

fn put(sink: &mut dyn Sink, block: &[u8], columns: usize, rows: usize) {
    sink.put(Case::new(MODES, &[0, columns as u64], &[block], &lists(rows, columns)));
}

pub fn short(sink: &mut dyn Sink) {
    every(&TELLING, 4, |block| {
        for columns in 1..=3 {
            put(sink, block, columns, 3);
        }
    });
    every(&[1, 2, 8, 13, 0x80], 6, |block| {
        put(sink, block, 2, 3);
        put(sink, block, 4, 3);
    });
}

/// Types of every kind, as many as columns, fewer and more, and bodies that end with the block, before and after.
fn types(sink: &mut dyn Sink) {
    for kind in 0..=255 {
        for tail in 0..=12 {
            for columns in 1..=2 {
                put(sink, &with_tail(&[kind], tail, 1), columns, 4);
                put(sink, &with_tail(&[kind], tail, 1)[1..], columns, 4);
            }
        }
    }
    for a in TYPES {
        for b in TYPES {
            for tail in 0..=16 {
                for columns in 1..=3 {
                    put(sink, &with_tail(&[a, b], tail, 1), columns, 4);
                }
                put(sink, &with_tail(&[a, b], tail, 2), 2, 3);
                put(sink, &with_tail(&[a, b], tail, 1)[1..], 2, 3);
            }
        }
    }
    every(&TYPES, 3, |types| {
        for tail in [0, 3, 9, 24] {
            put(sink, &with_tail(types, tail, 1), 3, 3);
        }
        put(sink, &with_tail(types, 20, 1)[1..], 3, 3);
    });
}

/// Headers of all lengths, in blocks that end with them, before and after, for more columns than they have and fewer.
fn header_lengths(sink: &mut dyn Sink) {
    for h in [0, 1, 2, 3, 4, 10, 126, 127, 128, 129, 511, 512, 513, 600, 1000] {
        for wide in 1..=9 {
            for columns in [1, 2, 14, 57, 63, 125, 126, 127, 509, 510] {
                for kind in [1, 8, 10] {
                    let Some(header) = exact(h, wide, columns, kind) else {
                        continue;
                    };
                    let mut block = header.clone();
                    block.extend([7; 130]);
                    for end in [header.len() - 1, header.len(), header.len() + 1, block.len()] {
                        put(sink, &block[..end], columns, 3);
                    }
                    for other in [1, columns.max(2) - 1, (columns + 1).min(510)] {
                        put(sink, &block, other, 3);
                    }
                }
            }
            // Nothing is in order behind the length.
            for fill in [0, 1, 0x80, 0xFF] {
                let mut block = varint(h as u64, wide);
                block.extend(vec![fill; 20]);
                put(sink, &block, 3, 3);
                block.extend(vec![fill; 1000]);
                put(sink, &block, 126, 3);
                put(sink, &block, 510, 3);
            }
        }
    }
}

/// Four bytes that begin no row, and types behind them: the first column is lost.
pub fn lost(sink: &mut dyn Sink) {
    let links: [&[u8]; 7] =
        [&[0, 0, 0, 9], &[0xFF; 4], &[0x80; 4], &[0, 40, 1, 2], &[9, 0, 0, 0], &[1, 1, 1, 1], &[0, 0, 0x80, 0x80]];
    for link in links {
        for columns in [1, 2, 3, 4] {
            for length in 0..link.len() {
                put(sink, &link[..length], columns, 3);
            }
            every(&[0, 1, 2, 7, 8, 10, 13, 15, 0x81], 3, |types| {
                for tail in [&[][..], &[5, 6], &[1, 2, 3, 4, 5, 6, 7, 8, 9]] {
                    put(sink, &[link, types, tail].concat(), columns, 2);
                }
            });
        }
    }
}

/// Rows one behind the other, and what is left behind the last.
fn stacked(sink: &mut dyn Sink) {
    let records: [&[u8]; 6] = [&[2, 8], &[2, 1, 7], &[3, 1, 8, 5], &[3, 15, 15, 65], &[4, 8, 8, 10], &[0x80, 3, 9]];
    let rests: [&[u8]; 6] = [&[], &[2], &[2, 8], &[0, 0, 0], &[9, 1, 1], &[0x80, 0x80, 0x80]];
    for a in records {
        for b in records {
            for c in records {
                for rest in rests {
                    for columns in [1, 2, 3] {
                        put(sink, &[a, b, c, rest].concat(), columns, 4);
                    }
                }
            }
        }
    }
}

/// Rows are of any length here: bodies that end with the block, and one byte behind.
fn long_rows(sink: &mut dyn Sink) {
    for total in [65_535, 65_536, 65_537, 100_000] {
        for length in [total - 1, total, total + 3] {
            let mut block = long_row(total, 1, 1, true);
            block.resize(length, b'a');
            put(sink, &block, 2, 2);
            put(sink, &block[1..], 2, 2);
        }
    }
    for kind in super::bytes::telling_numbers().into_iter().filter(|&kind| kind > 1000) {
        let header = super::records::header(&[(1, 1), (kind, super::bytes::width(kind)), (2, 1)], 1);
        put(sink, &[&header[..], &[1, 2, 3, 4]].concat(), 3, 3);
        put(sink, &[&[0, 0, 0, 9], &header[1..], &[1, 2, 3, 4]].concat(), 4, 3);
    }
}

fn bases(sink: &mut dyn Sink) {
    let top = 1u64 << 48;
    for base in [0, 1, 1 << 32, top - 1, top, top + 1, 1 << 63, u64::MAX] {
        for rows in 0..=3 {
            for block in [&[2, 8, 2, 9, 2, 8][..], &[0, 0, 0, 9, 1, 5]] {
                sink.put(Case::new(MODES, &[base, 2], &[block], &lists(rows, 2)));
            }
        }
    }
}

/// Every set of refusals that can hold at once, but for the size of the block, which large.rs adds.
pub fn refusals(sink: &mut dyn Sink, block: &[u8]) {
    for columns in [0, 1, 2, 126, 127, 509, 510, 511, 512, 1 << 32, (1 << 32) + 1, u64::MAX] {
        for base in [0, 1 << 48, (1 << 48) + 1] {
            for rows in [0, 1, 2] {
                let lists = lists(rows, columns.clamp(1, 600) as usize);
                sink.put(Case::new(MODES, &[base, columns], &[block], &lists));
            }
        }
    }
}

fn random_case(sink: &mut dyn Sink, random: &mut Random, block: &[u8], columns: usize) {
    let base = random.any_width() >> 16;
    let rows = if random.once_in(5) { random.below(4) } else { 8 };
    let [r, c] = lists(rows, columns);
    let room = [r + random.below(WORDS_PER_ROW), c + random.below(4 * columns)];
    sink.put(Case::new(MODES, &[base, columns as u64], &[block], &room));
}

/// As many columns as hints, or one more or fewer.
fn about(random: &mut Random, columns: usize) -> usize {
    if random.once_in(3) {
        (columns + random.below(3)).clamp(2, 511) - 1
    } else {
        columns
    }
}

fn some_stack(random: &mut Random, hints: &[u8]) -> Vec<u8> {
    let mut block = Vec::new();
    for _ in 0..1 + random.below(4) {
        let mut bytes = record(random, hints);
        if random.once_in(5) {
            damage(random, &mut bytes);
        }
        block.extend(bytes);
    }
    if random.once_in(2) {
        block.extend(junk(random));
    }
    block
}

fn random_stack(sink: &mut dyn Sink, random: &mut Random) {
    let hints = few_hints(random);
    let block = some_stack(random, &hints);
    let columns = about(random, hints.len());
    random_case(sink, random, &block, columns);
}

/// A freed cell with a link over its first four bytes.
fn random_link(sink: &mut dyn Sink, random: &mut Random) {
    let hints = few_hints(random);
    let mut block = cell(random, &hints);
    block.resize(block.len().max(4), 0);
    let (next, size) = (random.below(600) as u16, block.len() as u16);
    if !random.once_in(8) {
        block[..2].copy_from_slice(&next.to_be_bytes());
        block[2..4].copy_from_slice(&size.to_be_bytes());
    }
    if random.once_in(4) {
        damage(random, &mut block);
    }
    let columns = about(random, hints.len());
    random_case(sink, random, &block, columns);
}

fn random_bytes(sink: &mut dyn Sink, random: &mut Random) {
    let length = random.mostly_below(30, 20, 400);
    let mut block = random.bytes(length);
    match random.below(3) {
        0 => block.iter_mut().for_each(|b| *b = TYPES[*b as usize % TYPES.len()]),
        1 => block.iter_mut().for_each(|b| *b %= 20),
        _ => {}
    }
    let most = most_columns(random);
    let columns = 1 + random.mostly_below(5, 10, most);
    random_case(sink, random, &block, columns);
}

/// Every room from none to one more than is needed.
fn rooms(sink: &mut dyn Sink, random: &mut Random) {
    let hints = few_hints(random);
    let block = some_stack(random, &hints);
    let columns = hints.len();
    let found = rows(&Limits::of_the_rules(), &block, columns).len();
    let [most_r, most_c] = lists(found + 1, columns);
    for room in 0..=found + 1 {
        let [r, c] = lists(room, columns);
        for lent in [[r, c], [r, most_c], [most_r, c], [r + WORDS_PER_ROW - 1, c + 4 * columns - 1], [r.max(1) - 1, c]]
        {
            sink.put(Case::new(MODES, &[1 << 20, columns as u64], &[&block], &lent));
        }
    }
}
