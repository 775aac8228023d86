//! The boundaries of the rules: one below, at and above each.

use super::bytes::{varint, width};
use super::gaps::WIDE;
use super::regions::{attempt, lists, scan};
use crate::calls::{ATTEMPT, SCAN};
use crate::case::Case;
use crate::random::Random;
use crate::rules::value::body_length;
use crate::runner::Sink;

pub fn all(sink: &mut dyn Sink, random: &mut Random, count: usize) {
    header_lengths(sink);
    past_the_header(sink);
    column_counts(sink);
    consumed(sink);
    bases(sink);
    refusals(sink, &[3, 1, 0x17, 0x2A, 0x68, 0x69, 0x70, 0x69, 0x6B]);
    for _ in 0..count {
        random_header(sink, random);
    }
}

/// A few of each, but for those of the largest regions.
pub fn to_be_recorded(sink: &mut dyn Sink) {
    for h in [1, 2, 3, 511, 512, 513] {
        for wide in 1..=3 {
            for columns in [1, 57, 126] {
                if let Some(header) = exact(h, wide, columns, 0) {
                    scan(sink, &header, &vec![0; columns], 1);
                    attempt(sink, &header, &vec![5; columns], 0);
                }
            }
        }
    }
    for total in [65_536, 65_537] {
        let mut region = long_row(total, 1, 1, true);
        region.resize(total, 0);
        attempt(sink, &region, &[0, 2], 0);
    }
    let top = 1 << 48;
    for (columns, hint, base) in [
        (0, 0, top + 1),
        (1, 0, 0),
        (1, 0, top),
        (1, 0, top + 1),
        (1, 6, top + 1),
        (2, 255, 0),
        (510, 0, 0),
        (510, 6, 0),
        (511, 0, 0),
        (511, 6, top + 1),
    ] {
        // The last hint is the bad one.
        let mut hints = vec![0; columns];
        hints.last_mut().into_iter().for_each(|last| *last = hint);
        for call in [ATTEMPT, SCAN] {
            for rows in [0, 1] {
                sink.put(Case::new(call, &[base, 1], &[&[0, 2, 9, 0], &hints], &lists(rows, 1)));
            }
        }
    }
}

/// The widths of so many types in so many bytes, each from 1 to 9; none where they do not go in.
pub fn spread(columns: usize, bytes: usize) -> Option<Vec<usize>> {
    if columns == 0 || bytes < columns || bytes > 9 * columns {
        return None;
    }
    let mut left = bytes;
    let width = |i: usize| {
        // The rest goes to the columns that are left.
        let width = left.div_ceil(columns - i);
        left -= width;
        width
    };
    Some((0..columns).map(width).collect())
}

/// A header of just h bytes that says so in `wide` bytes, with so many types.
pub fn exact(h: usize, wide: usize, columns: usize, kind: u64) -> Option<Vec<u8>> {
    if width(h as u64) > wide {
        return None;
    }
    let mut header = varint(h as u64, wide);
    header.extend(spread(columns, h.checked_sub(wide)?)?.into_iter().flat_map(|wide| varint(kind, wide)));
    Some(header)
}

fn header_lengths(sink: &mut dyn Sink) {
    for h in [0, 1, 2, 3, 4, 10, 126, 127, 128, 129, 130, 255, 256, 257, 510, 511, 512, 513, 514, 600] {
        for wide in 1..=9 {
            for columns in [1, 2, 3, 13, 14, 15, 56, 57, 58, 63, 64, 125, 126].into_iter().chain(WIDE) {
                for kind in [0, 9] {
                    if let Some(header) = exact(h, wide, columns, kind) {
                        around(sink, &header, columns);
                    }
                }
            }
        }
        bare(sink, h as u64);
    }
}

/// The region ends before the header does, with it, and after it; the count is right, and off by one.
fn around(sink: &mut dyn Sink, header: &[u8], columns: usize) {
    let mut region = header.to_vec();
    region.extend([0, 0, 0, 2]);
    for end in header.len() - 1..=region.len() {
        scan(sink, &region[..end], &vec![0; columns], 2);
        attempt(sink, &region[..end], &vec![0; columns], 0);
    }
    for other in [columns - 1, columns + 1] {
        scan(sink, &region, &vec![5; other], 2);
    }
}

/// A header length of every width with nothing in order behind it.
fn bare(sink: &mut dyn Sink, h: u64) {
    for wide in width(h)..=9 {
        for fill in [0, 0x80, 0xFF] {
            let mut region = varint(h, wide);
            region.extend(vec![fill; 620]);
            scan(sink, &region, &[5], 2);
            attempt(sink, &region, &[0, 5], 0);
        }
    }
}

/// The last type begins in the header and ends behind it.
fn past_the_header(sink: &mut dyn Sink) {
    for wide in 1..=9 {
        for over in 0..wide {
            for h_wide in [1, 2] {
                let mut region = varint((h_wide + 1 + wide - over) as u64, h_wide);
                region.extend([1]);
                region.extend(varint(13, wide));
                region.extend([7, 7, 7]);
                for end in h_wide..=region.len() {
                    scan(sink, &region[..end], &[0, 2], 2);
                }
            }
        }
    }
}

fn column_counts(sink: &mut dyn Sink) {
    for columns in [0, 1, 2, 63, 64, 125, 126, 508, 511, 512, 513, 600].into_iter().chain(WIDE) {
        for kind in [0, 8, 1] {
            let types: Vec<(u64, usize)> = vec![(kind, 1); columns];
            let mut region = super::records::header(&types, 1);
            region.extend(vec![0x55; columns + 3]);
            for hint in [0, 4, 5, 6] {
                scan(sink, &region, &vec![hint; columns], 2);
                attempt(sink, &region, &vec![hint; columns], 0);
            }
        }
    }
}

/// Rows that take 65,534 to 65,538 bytes, in regions that end with them, before, and after.
fn consumed(sink: &mut dyn Sink) {
    for total in 65_534..=65_538 {
        for (first, wide) in [(1, 1), (9, 3), (13, 1)] {
            for last_is_text in [false, true] {
                let header = long_row(total, first, wide, last_is_text);
                for length in [total - 1, total, total + 1, total + 3] {
                    let mut region = header.clone();
                    region.resize(length, 0);
                    scan(sink, &region, &[5, if last_is_text { 2 } else { 3 }], 1);
                    attempt(sink, &region, &[5, 5], 0);
                }
            }
        }
    }
}

/// The header of a row of so many bytes: a short column, and a long one that takes what is left.
pub fn long_row(total: usize, first: u64, wide: usize, last_is_text: bool) -> Vec<u8> {
    const LONG_TYPE: usize = 3;
    let length = wide + 1 + LONG_TYPE;
    let body = total - length - body_length(first).unwrap_or(0) as usize;
    let kind = 12 + 2 * body as u64 + u64::from(last_is_text);
    [varint(length as u64, wide), varint(first, 1), varint(kind, LONG_TYPE)].concat()
}

fn bases(sink: &mut dyn Sink) {
    let region = [2, 9, 2, 8, 0, 2, 1, 5, 0, 0];
    let top = 1u64 << 48;
    for base in [0, 1, top - 1, top, top + 1, top + 2, 1 << 49, 1 << 63, u64::MAX - 8, u64::MAX] {
        for start in [0, 2, 4, 9] {
            for call in [ATTEMPT, SCAN] {
                sink.put(Case::new(call, &[base, start], &[&region, &[0]], &lists(3, 1)));
            }
        }
    }
}

/// Every set of refusals that can hold at once, but for the size of the region, which large.rs adds.
pub fn refusals(sink: &mut dyn Sink, region: &[u8]) {
    for columns in [0, 1, 2, 510, 511] {
        for bad in [None, Some(0), Some(columns.max(1) - 1)] {
            for base in [0, 1 << 48, (1 << 48) + 1] {
                for rows in [0, 1] {
                    let mut hints = vec![2; columns];
                    if let Some(at) = bad.filter(|&at| at < columns) {
                        hints[at] = 6 + (at % 250) as u8;
                    }
                    for call in [ATTEMPT, SCAN] {
                        sink.put(Case::new(call, &[base, 0], &[region, &hints], &lists(rows, columns.clamp(1, 2))));
                    }
                }
            }
        }
    }
}

/// A header of any length up to 530, full of types.
fn random_header(sink: &mut dyn Sink, random: &mut Random) {
    let h = 2 + random.below(529);
    let wide = width(h as u64) + random.below(3);
    let most = h.saturating_sub(wide).clamp(1, 511);
    let least = h.saturating_sub(wide).div_ceil(9).clamp(1, most);
    let columns = least + random.below(most - least + 1);
    let kind = random.pick(&[0, 8, 9, 12, 13]);
    if let Some(mut region) = exact(h, wide, columns, kind) {
        let more = random.below(6);
        region.extend(random.bytes(more));
        let hints: Vec<u8> = (0..columns).map(|_| random.below(6) as u8).collect();
        scan(sink, &region, &hints, 2);
    }
}
