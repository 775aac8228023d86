//! Regions carved by learned types: every short one, every pair of types, headers of all lengths, every share of columns
//! that match, and random ones.

use super::bytes::{every, telling_numbers, varint, width, TELLING, TYPES};
use super::gaps::{few_hints, some_of, WIDE};
use super::limits::{exact, long_row};
use super::records::{damage, header, junk, region};
use super::regions::{lists, with_tail};
use crate::calls::UNALLOC;
use crate::case::Case;
use crate::random::Random;
use crate::rules::learn::rows;
use crate::rules::limits::{Limits, WORDS_PER_ROW};
use crate::rules::value::body_length;
use crate::runner::Sink;

pub fn all(sink: &mut dyn Sink, random: &mut Random, count: usize) {
    short(sink);
    pairs(sink);
    types_and_tails(sink);
    header_lengths(sink);
    shares(sink);
    ends(sink);
    long_rows(sink);
    bases(sink);
    refusals(sink, &[2, 8, 0, 2, 9]);
    for i in 0..count {
        match i % 256 {
            0 => rooms(sink, random),
            1..=48 => random_bytes(sink, random),
            _ => random_region(sink, random),
        }
    }
}

fn put(sink: &mut dyn Sink, region: &[u8], types: &[u64], rows: usize) {
    let lists = lists(rows, types.len());
    sink.put(Case::new(UNALLOC, &[0], &[region], &lists).with_words(&[types]));
}

fn short(sink: &mut dyn Sink) {
    let learned: [&[u64]; 8] = [&[0], &[1], &[7], &[12], &[13], &[10], &[8, 13], &[0, 1, 12]];
    every(&TELLING, 3, |region| {
        for types in learned {
            put(sink, region, types, 3);
        }
    });
    every(&TELLING, 4, |region| {
        put(sink, region, &[8], 3);
        put(sink, region, &[8, 15], 3);
    });
}

/// Every pair of a type and a learned one, alone and beside a column that always matches.
pub fn pairs(sink: &mut dyn Sink) {
    let some = [30, 31, 127, 128, 1 << 32, (1 << 32) + 1, 1 << 63, (1 << 63) + 1, u64::MAX - 1, u64::MAX];
    let learned: Vec<u64> = (0..=20).chain(some).collect();
    for kind in (0..=20).chain([30, 31, 40, 41]) {
        let body = vec![7; body_length(kind).unwrap_or(0) as usize];
        let record = [header(&[(kind, 1)], 1), body.clone(), vec![0, 0]].concat();
        let beside = [header(&[(8, 1), (kind, 1)], 1), body, vec![0, 0]].concat();
        for &other in &learned {
            put(sink, &record, &[other], 2);
            put(sink, &beside, &[9, other], 2);
            put(sink, &beside, &[9], 2);
        }
    }
    for kind in telling_numbers().into_iter().filter(|&kind| kind > 1000) {
        for learned in [12, 13, kind, kind ^ 1] {
            put(sink, &[header(&[(kind, width(kind)), (8, 1)], 1), vec![1, 2, 3, 4]].concat(), &[learned, 8], 2);
        }
    }
}

fn types_and_tails(sink: &mut dyn Sink) {
    for kind in 0..=255 {
        for tail in 0..=12 {
            for learned in [&[1][..], &[13], &[12, 7]] {
                put(sink, &with_tail(&[kind], tail, 1), learned, 4);
            }
        }
    }
    for a in TYPES {
        for b in TYPES {
            for tail in [0, 1, 2, 3, 4, 8, 16] {
                for learned in [[1, 13], [13, 12], [0, 7], [8, 8]] {
                    put(sink, &with_tail(&[a, b], tail, 1), &learned, 3);
                }
                put(sink, &with_tail(&[a, b], tail, 2), &[1, 13, 7], 3);
                put(sink, &with_tail(&[a, b], tail, 1), &[4], 3);
            }
        }
    }
    every(&TYPES, 3, |types| {
        for (tail, learned) in [(2, [1, 7, 13]), (24, [13, 1, 1]), (9, [12, 0, 6])] {
            put(sink, &with_tail(types, tail, 1), &learned, 3);
        }
    });
}

/// Headers of all lengths up to the longest, in regions that end with them, before and after.
pub fn header_lengths(sink: &mut dyn Sink) {
    for h in [0, 1, 2, 3, 4, 10, 126, 127, 128, 129, 510, 511, 512, 513, 514, 600] {
        for wide in 1..=9 {
            for columns in [1, 2, 14, 57, 63, 64, 125, 126, 127, 509, 510] {
                let Some(header) = exact(h, wide, columns, 8) else {
                    continue;
                };
                let mut region = header.clone();
                region.extend([0; 130]);
                for end in [header.len() - 1, header.len(), header.len() + 1, columns + 1, region.len()] {
                    put(sink, &region[..end.min(region.len())], &vec![9; columns], 2);
                }
                for other in [1, columns.max(2) - 1, (columns + 1).min(510)] {
                    put(sink, &region, &vec![1; other], 2);
                }
            }
            for fill in [0, 1, 0x80, 0xFF] {
                let mut region = varint(h as u64, wide);
                region.extend(vec![fill; 620]);
                put(sink, &region, &[1], 2);
                put(sink, &region, &[0, 13], 2);
            }
        }
    }
}

/// Every share of columns that match, in rows with all columns and with fewer.
pub fn shares(sink: &mut dyn Sink) {
    for columns in (1..=126).chain(WIDE) {
        for matched in some_of(columns) {
            let mut types = vec![0; columns];
            types[..matched].fill(1);
            // All types, and as many as match.
            for read in [columns, matched] {
                let mut region = header(&vec![(8, 1); read], 1);
                region.resize(columns + 2, 8);
                put(sink, &region, &types, 1);
            }
        }
    }
}

/// A row at every place before the region's end: as many bytes must be left as columns, and one more.
pub fn ends(sink: &mut dyn Sink) {
    for columns in 1..=6 {
        for record in [&[2, 8][..], &[2, 1, 7], &[3, 8, 9], &[0x80, 3, 8]] {
            for before in 0..4 {
                for behind in 0..8 {
                    let region = [&vec![0; before][..], record, &vec![0; behind]].concat();
                    put(sink, &region, &vec![1; columns], 2);
                }
            }
        }
    }
}

/// Rows are of any length here.
fn long_rows(sink: &mut dyn Sink) {
    for total in [65_535, 65_536, 65_537, 70_000, 131_072] {
        for length in [total - 1, total, total + 3] {
            let mut region = long_row(total, 1, 1, true);
            region.resize(length, 0);
            put(sink, &region, &[1, 13], 1);
        }
    }
}

fn bases(sink: &mut dyn Sink) {
    let top = 1u64 << 48;
    for base in [0, 1, 1 << 32, top - 1, top, top + 1, 1 << 63, u64::MAX] {
        for rows in 0..=3 {
            let case = Case::new(UNALLOC, &[base], &[&[2, 8, 0, 2, 9, 0]], &lists(rows, 1));
            sink.put(case.with_words(&[&[1]]));
        }
    }
}

/// Every set of refusals that can hold at once, but for the size of the region, which large.rs adds.
pub fn refusals(sink: &mut dyn Sink, region: &[u8]) {
    for columns in [0, 1, 2, 126, 127, 509, 510, 511, 512, 1000] {
        for base in [0, 1 << 48, (1 << 48) + 1] {
            for rows in [0, 1, 2] {
                let case = Case::new(UNALLOC, &[base], &[region], &lists(rows, columns.clamp(1, 600)));
                sink.put(case.with_words(&[&vec![1; columns]]));
            }
        }
    }
}

/// A learned type for a hint, as a rule.
fn learned(random: &mut Random, hint: u8) -> u64 {
    let small = random.below(12) as u64;
    match hint {
        _ if random.once_in(6) => random.pick(&[0, 1, 6, 7, 8, 10, 11, 12, 13, 21, 30]),
        0 => random.pick(&[1, 2, 3, 4, 6, 8]),
        1 => 7,
        2 => 13 + 2 * small,
        3 => 12 + 2 * small,
        4 => 0,
        _ => random.any_width(),
    }
}

fn some_types(random: &mut Random, hints: &[u8]) -> Vec<u64> {
    let mut types: Vec<u64> = hints.iter().map(|&hint| learned(random, hint)).collect();
    match random.below(8) {
        // Rows with a column more than was learned, or fewer.
        0 => types.push(random.below(20) as u64),
        1 if types.len() > 1 => drop(types.pop()),
        _ => {}
    }
    types.truncate(510);
    types
}

fn random_region(sink: &mut dyn Sink, random: &mut Random) {
    let hints = few_hints(random);
    let types = some_types(random, &hints);
    let records = random.mostly_below(5, 30, 30);
    let mut region = region(random, &hints, records);
    if random.once_in(4) {
        damage(random, &mut region);
    }
    let base = random.any_width() >> 16;
    let rows = if random.once_in(4) { random.below(records + 2) } else { records + 4 };
    let [r, c] = lists(rows, types.len());
    let room = [r + random.below(WORDS_PER_ROW), c + random.below(4 * types.len())];
    sink.put(Case::new(UNALLOC, &[base], &[&region], &room).with_words(&[&types]));
}

fn random_bytes(sink: &mut dyn Sink, random: &mut Random) {
    let length = random.mostly_below(60, 20, 800);
    let mut region = random.bytes(length);
    match random.below(3) {
        0 => region.iter_mut().for_each(|b| *b = TYPES[*b as usize % TYPES.len()]),
        1 => region.iter_mut().for_each(|b| *b %= 20),
        _ => {}
    }
    let hints = few_hints(random);
    let types = some_types(random, &hints);
    put(sink, &[region, junk(random)].concat(), &types, 8);
}

/// Every room from none to one more than is needed.
fn rooms(sink: &mut dyn Sink, random: &mut Random) {
    let hints = few_hints(random);
    let types = some_types(random, &hints);
    let region = region(random, &hints, 1 + types.len() % 5);
    let found = rows(&Limits::of_the_rules(), &region, &types).len();
    let [most_r, most_c] = lists(found + 1, types.len());
    for room in (0..=found + 1).take(8) {
        let [r, c] = lists(room, types.len());
        for lent in
            [[r, c], [r, most_c], [most_r, c], [r + WORDS_PER_ROW - 1, c + 4 * types.len() - 1], [r.max(1) - 1, c]]
        {
            sink.put(Case::new(UNALLOC, &[1 << 20], &[&region], &lent).with_words(&[&types]));
        }
    }
}
