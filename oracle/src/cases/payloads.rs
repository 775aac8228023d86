//! What a free block holds: every short payload, every short header, and every place where a row may begin.

use super::bytes::{every, TELLING, TYPES};
use super::chains::slice;
use super::databases::{link, put};
use super::gaps::WIDE;
use super::limits::{exact, long_row};
use super::regions::with_tail;
use crate::runner::Sink;

pub fn short_rows(sink: &mut dyn Sink) {
    short(sink);
    types(sink);
    starts(sink);
    header_lengths(sink);
}

/// A page with one block, which holds just these bytes; the page ends with it, or others come behind.
fn around(payload: &[u8], behind: &[u8]) -> Vec<u8> {
    let mut page = vec![0; 12];
    put(&mut page, 1, 8);
    link(&mut page, 8, 0, 4 + payload.len());
    page.extend(payload);
    page.extend(behind);
    page
}

/// The bytes behind a block, which no row may reach.
const BEHIND: [u8; 12] = [2, 8, 0, 1, 2, 8, 3, 8, 8, 0x7F, 0, 0];

fn short(sink: &mut dyn Sink) {
    let lent: [&[u8]; 8] = [&[0], &[1], &[2], &[3], &[4], &[5], &[0, 5], &[5, 5, 5]];
    every(&TELLING, 3, |payload| {
        for hints in lent {
            slice(sink, &around(payload, &[]), 0, hints, 1);
            slice(sink, &around(payload, &BEHIND), 0, hints, 1);
        }
    });
}

fn types(sink: &mut dyn Sink) {
    for kind in 0..=255 {
        for bodies in 0..=12 {
            for hint in 0..6 {
                slice(sink, &around(&with_tail(&[kind], bodies, 1), &BEHIND), 0, &[hint], 1);
            }
        }
    }
    for a in TYPES {
        for b in TYPES {
            for bodies in [0, 1, 2, 4, 8, 16] {
                for hints in [[0, 0], [0, 2], [1, 3], [2, 5], [3, 4], [4, 1]] {
                    slice(sink, &around(&with_tail(&[a, b], bodies, 1), &BEHIND), 0, &hints, 1);
                    slice(sink, &around(&with_tail(&[a, b], bodies, 2), &[]), 0, &hints, 1);
                }
            }
        }
    }
    every(&TYPES, 3, |types| {
        for bodies in [3, 12, 24] {
            slice(sink, &around(&with_tail(types, bodies, 1), &BEHIND), 0, &[0, 2, 3], 1);
        }
    });
}

/// A row at every place up to the first that does not count, in payloads of every length up to and past its end.
fn starts(sink: &mut dyn Sink) {
    let records: [(&[u8], &[u8]); 3] =
        [(&[2, 8], &[0]), (&[3, 1, 0x17, 0x2A, 0x68, 0x69, 0x70, 0x69, 0x6B], &[0, 2]), (&[0x80, 3, 13], &[2])];
    for (record, hints) in records {
        for v in 0..=23 {
            for filled in [0, 1, 0x80, 0xFF] {
                let mut whole = vec![filled; v];
                whole.extend(record);
                whole.extend([filled; 3]);
                // A second row, which must not be taken.
                whole.extend(record);
                for length in 0..=whole.len() {
                    slice(sink, &around(&whole[..length], &whole[length..]), 0, hints, 2);
                }
            }
        }
    }
}

/// Headers up to the longest, in blocks that end with them, before, and after.
fn header_lengths(sink: &mut dyn Sink) {
    for h in [2, 3, 127, 128, 510, 511, 512, 513, 514] {
        let wide_ones = WIDE.map(|columns| (2, columns));
        for (wide, columns) in [(1, 1), (1, 126), (2, 57), (2, 125), (2, 126), (3, 126)].into_iter().chain(wide_ones) {
            let Some(header) = exact(h, wide, columns, 8) else {
                continue;
            };
            for end in [header.len() - 1, header.len()] {
                slice(sink, &around(&header[..end], &header[end..]), 0, &vec![0; columns], 1);
                slice(sink, &around(&header[..end], &header[end..]), 0, &vec![5; columns - 1], 1);
            }
        }
    }
}

/// Rows that end where their block does, and one byte behind, up to the longest block.
pub fn long_rows(sink: &mut dyn Sink) {
    for payload in [20, 400, 4000, 65_530, 65_531] {
        for total in payload - 1..=payload + 1 {
            let mut bytes = long_row(total, 1, 1, true);
            bytes.resize(payload, b'a');
            slice(sink, &around(&bytes, b"aaa"), 0, &[0, 2], 1);
        }
    }
}
