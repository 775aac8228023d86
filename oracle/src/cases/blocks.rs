//! The payload of one freed block: every short one, cells of every width packed and cut off, and rebuilt headers.

use super::bytes::{every, telling_numbers, varint, width, TELLING, TYPES};
use super::gaps::{cell, each_way, few_hints, WAYS};
use super::records::{damage, junk};
use super::regions::{lists, with_tail};
use crate::calls::BLOCK;
use crate::case::Case;
use crate::random::Random;
use crate::rules::gap::{block_rows, Sought};
use crate::rules::limits::{Limits, WORDS_PER_ROW};
use crate::runner::Sink;

pub fn all(sink: &mut dyn Sink, random: &mut Random, count: usize) {
    short(sink);
    widths(sink);
    lengths(sink);
    packed(sink);
    same_offset(sink);
    rebuilt(sink);
    long_rows(sink);
    bases(sink);
    refusals(sink, &[4, 7, 2, 1, 9, 0, 8]);
    for i in 0..count {
        match i % 256 {
            0 => rooms(sink, random),
            1..=64 => random_bytes(sink, random),
            _ => random_block(sink, random),
        }
    }
}

pub fn block(sink: &mut dyn Sink, payload: &[u8], hints: &[u8], rows: usize) {
    let lists = lists(rows, hints.len());
    each_way(sink, Case::new(BLOCK, &[0], &[payload, hints], &lists));
}

fn short(sink: &mut dyn Sink) {
    let lent: [&[u8]; 8] = [&[0], &[1], &[2], &[3], &[4], &[5], &[0, 5], &[5, 5, 5]];
    every(&TELLING, 3, |payload| {
        for hints in lent {
            block(sink, payload, hints, 6);
        }
    });
    every(&[1, 2, 3, 4, 8, 13, 0x80], 5, |payload| {
        block(sink, payload, &[0], 6);
        block(sink, payload, &[5, 5], 6);
    });
}

/// A row of one column, and what it is behind in a cell.
const ROW: [u8; 3] = [2, 1, 9];

/// Lengths and row ids of every width, with rows behind them or one byte too few.
fn widths(sink: &mut dyn Sink) {
    let ids = [0, 1, 127, 128, 1 << 31, 1 << 32, (1 << 63) - 1, 1 << 63, u64::MAX - 1, u64::MAX];
    for length_width in 1..=9 {
        for id in ids {
            for id_width in width(id)..=9 {
                let cell = [varint(3, length_width), varint(id, id_width), ROW.to_vec(), vec![0]].concat();
                for end in [cell.len() - 2, cell.len() - 1, cell.len()] {
                    block(sink, &cell[..end], &[0], 5);
                }
            }
        }
    }
    // Neither is whole.
    for cut in 1..=9 {
        for fill in [0x80, 0xFF] {
            block(sink, &vec![fill; cut], &[5], 2);
            block(sink, &[&[3][..], &vec![fill; cut]].concat(), &[5], 2);
            block(sink, &[&[3, 7][..], &ROW, &vec![fill; cut]].concat(), &[5], 2);
        }
    }
}

/// Payloads of any length around a row: too short for it, longer than it, and far longer than the block.
fn lengths(sink: &mut dyn Sink) {
    for length in 0..=20 {
        for tail in 0..=14 {
            let payload = [&[length, 7][..], &ROW, &vec![8; tail]].concat();
            block(sink, &payload, &[0], 24);
        }
    }
    for length in telling_numbers() {
        for before in [0, 1, 30, 260] {
            let payload = [vec![0; before], varint(length, width(length).max(2)), vec![7], ROW.to_vec()].concat();
            block(sink, &payload, &[0], 8);
        }
    }
}

/// Cells one behind the other, some bytes apart, with ones between that are none.
fn packed(sink: &mut dyn Sink) {
    let cells: [&[u8]; 5] = [&[3, 1, 2, 1, 9], &[2, 2, 2, 8], &[4, 3, 3, 1, 8, 7], &[9, 4, 2, 8], &[0, 5, 2, 9]];
    let between: [&[u8]; 4] = [&[], &[0], &[0, 0x80], &[1, 1, 1]];
    for a in cells {
        for b in cells {
            for c in cells {
                for gap in between {
                    for hints in [&[0][..], &[5, 5]] {
                        block(sink, &[gap, a, gap, b, c, gap].concat(), hints, 16);
                    }
                }
            }
        }
    }
}

/// A cell's row whose own bytes read as types, too: no rebuilt row stands there.
fn same_offset(sink: &mut dyn Sink) {
    for a in TYPES {
        for b in TYPES {
            for tail in [0, 2, 9, 24] {
                let record = with_tail(&[a, b], tail, 1);
                let cell = [&[record.len() as u8, 7][..], &record, &[8; 3]].concat();
                block(sink, &cell, &[5, 0], 30);
                block(sink, &[&cell[..], &cell].concat(), &[5, 5], 60);
            }
        }
        for tail in 0..=12 {
            let record = with_tail(&[a], tail, 1);
            for hint in 0..6 {
                block(sink, &[&[record.len() as u8, 7][..], &record, &[0, 8]].concat(), &[hint], 20);
            }
        }
    }
}

/// Types alone, as many as columns and not, in blocks that end with their bodies, before and after.
pub fn rebuilt(sink: &mut dyn Sink) {
    for kind in 0..=255 {
        for tail in 0..=10 {
            for hint in [0, 3, 5] {
                block(sink, &with_tail(&[kind], tail, 1)[1..], &[hint], 12);
            }
        }
    }
    every(&TYPES, 3, |types| {
        for tail in [0, 3, 20] {
            block(sink, &with_tail(types, tail, 1)[1..], &[0, 2, 3], 24);
        }
    });
    for columns in [1, 2, 3, 5, 63, 64, 125, 126, 127] {
        for length in columns - 1..columns + 3 {
            block(sink, &vec![8; length], &vec![0; columns], 4);
            block(sink, &vec![0x80; length], &vec![5; columns], 4);
        }
    }
}

/// The longest rows, of a cell and rebuilt, and those of one byte more.
pub fn long_rows(sink: &mut dyn Sink) {
    const LONG: usize = 3;
    for total in 65_534..=65_537 {
        // Two columns: the second type runs past the header that is made up, and bodies start behind two bytes.
        let text = varint(13 + 2 * (total as u64 - 3), LONG);
        let mut payload = [&[1][..], &text].concat();
        payload.resize(total, 0x80);
        block(sink, &payload, &[0, 2], total % 2);
    }
    for total in 65_535..=65_537 {
        let header = super::limits::long_row(total, 1, 1, true);
        let mut payload = [varint(total as u64, LONG), vec![7], header].concat();
        payload.resize(LONG + 1 + total, 0x80);
        block(sink, &payload, &[0, 2], 1);
    }
}

fn bases(sink: &mut dyn Sink) {
    let top = 1u64 << 48;
    for base in [0, 1, 1 << 32, top - 1, top, top + 1, 1 << 63, u64::MAX] {
        for rows in 0..=4 {
            each_way(sink, Case::new(BLOCK, &[base], &[&[3, 7, 2, 1, 9, 8, 8], &[0]], &lists(rows, 1)));
        }
    }
}

/// Every set of refusals that can hold at once, but for the size of the block, which large.rs adds.
pub fn refusals(sink: &mut dyn Sink, payload: &[u8]) {
    for columns in [0, 1, 2, 126, 127, 510, 511] {
        for bad in [None, Some(0), Some(columns.max(1) - 1)] {
            let mut hints = vec![0; columns];
            if let Some(hint) = bad.and_then(|at: usize| hints.get_mut(at)) {
                *hint = 6;
            }
            for rows in [0, 1] {
                for base in [0, 1 << 48, (1 << 48) + 1] {
                    each_way(sink, Case::new(BLOCK, &[base], &[payload, &hints], &lists(rows, columns.max(1))));
                }
            }
        }
    }
}

/// Cells, some of them without their first bytes, as where a link was written over them.
fn some_block(random: &mut Random, hints: &[u8]) -> Vec<u8> {
    let mut payload = Vec::new();
    for i in 0..1 + random.below(4) {
        let mut bytes = cell(random, hints);
        if i == 0 && random.once_in(2) || random.once_in(6) {
            bytes.drain(..bytes.len().min(1 + random.below(4)));
        }
        if random.once_in(5) {
            damage(random, &mut bytes);
        }
        payload.extend(bytes);
        if random.once_in(4) {
            payload.extend(junk(random));
        }
    }
    payload
}

fn random_block(sink: &mut dyn Sink, random: &mut Random) {
    let hints = few_hints(random);
    let payload = some_block(random, &hints);
    let base = random.any_width() >> 16;
    let rows = if random.once_in(5) { random.below(6) } else { payload.len().min(40) };
    let [r, c] = lists(rows, hints.len());
    let room = [r + random.below(WORDS_PER_ROW), c + random.below(4 * hints.len())];
    each_way(sink, Case::new(BLOCK, &[base], &[&payload, &hints], &room));
}

/// Bytes at random: all kinds, or those that begin cells and rows.
fn random_bytes(sink: &mut dyn Sink, random: &mut Random) {
    let length = random.mostly_below(40, 20, 400);
    let mut payload = random.bytes(length);
    match random.below(3) {
        0 => payload.iter_mut().for_each(|b| *b = TYPES[*b as usize % TYPES.len()]),
        1 => payload.iter_mut().for_each(|b| *b %= 14),
        _ => {}
    }
    let hints = few_hints(random);
    block(sink, &payload, &hints, length.min(40));
}

/// Every room from none to one more than is needed.
fn rooms(sink: &mut dyn Sink, random: &mut Random) {
    let hints = few_hints(random);
    let payload = some_block(random, &hints);
    let found = |rebuilding| block_rows(&Limits::of_the_rules(), &payload, Sought { hints: &hints, rebuilding }).len();
    let found = WAYS.map(found).into_iter().max().unwrap_or(0);
    let [most_r, most_c] = lists(found + 1, hints.len());
    for room in (0..=found + 1).rev().take(12).chain([0, 1]) {
        let [r, c] = lists(room, hints.len());
        for lent in
            [[r, c], [r, most_c], [most_r, c], [r + WORDS_PER_ROW - 1, c + 4 * hints.len() - 1], [r.max(1) - 1, c]]
        {
            each_way(sink, Case::new(BLOCK, &[1 << 20], &[&payload, &hints], &lent));
        }
    }
}
